# Completion of bwlog for bash: source it, or put it where bash looks for completions.
_bwlog() {
    local mode="${COMP_WORDS[1]}" last="${COMP_WORDS[COMP_CWORD-1]}" word="${COMP_WORDS[COMP_CWORD]}"
    if [ "$COMP_CWORD" -eq 1 ]; then
        COMPREPLY=($(compgen -W "put get del list count import export tables replay serve shell threads scan print stats picture verify copy follow salvage restore upgrade help --help --version" -- "$word"))
        return
    fi
    case "$mode $last" in
        "put --dir") COMPREPLY=($(compgen -d -- "$word")); return ;;
        "get --dir") COMPREPLY=($(compgen -d -- "$word")); return ;;
        "del --dir") COMPREPLY=($(compgen -d -- "$word")); return ;;
        "list --dir") COMPREPLY=($(compgen -d -- "$word")); return ;;
        "count --dir") COMPREPLY=($(compgen -d -- "$word")); return ;;
        "import --dir") COMPREPLY=($(compgen -d -- "$word")); return ;;
        "export --dir") COMPREPLY=($(compgen -d -- "$word")); return ;;
        "tables --dir") COMPREPLY=($(compgen -d -- "$word")); return ;;
        "replay --dir") COMPREPLY=($(compgen -d -- "$word")); return ;;
        "serve --dir") COMPREPLY=($(compgen -d -- "$word")); return ;;
        "shell --dir") COMPREPLY=($(compgen -d -- "$word")); return ;;
        "threads --dir") COMPREPLY=($(compgen -d -- "$word")); return ;;
        "scan --dir") COMPREPLY=($(compgen -d -- "$word")); return ;;
        "print --dir") COMPREPLY=($(compgen -d -- "$word")); return ;;
        "stats --dir") COMPREPLY=($(compgen -d -- "$word")); return ;;
        "picture --dir") COMPREPLY=($(compgen -d -- "$word")); return ;;
        "verify --dir") COMPREPLY=($(compgen -d -- "$word")); return ;;
        "copy --dir") COMPREPLY=($(compgen -d -- "$word")); return ;;
        "copy --to") COMPREPLY=($(compgen -d -- "$word")); return ;;
        "follow --dir") COMPREPLY=($(compgen -d -- "$word")); return ;;
        "follow --to") COMPREPLY=($(compgen -d -- "$word")); return ;;
        "salvage --dir") COMPREPLY=($(compgen -d -- "$word")); return ;;
        "salvage --to") COMPREPLY=($(compgen -d -- "$word")); return ;;
        "restore --dir") COMPREPLY=($(compgen -d -- "$word")); return ;;
        "restore --to") COMPREPLY=($(compgen -d -- "$word")); return ;;
        "upgrade --dir") COMPREPLY=($(compgen -d -- "$word")); return ;;
        "list --format") COMPREPLY=($(compgen -W "lines json csv" -- "$word")); return ;;
        "import --format") COMPREPLY=($(compgen -W "lines json csv dump" -- "$word")); return ;;
        "export --format") COMPREPLY=($(compgen -W "lines json csv dump print" -- "$word")); return ;;
        "stats --format") COMPREPLY=($(compgen -W "lines json" -- "$word")); return ;;
        "verify --format") COMPREPLY=($(compgen -W "lines json" -- "$word")); return ;;
    esac
    case "$mode" in
        put) COMPREPLY=($(compgen -W "--dir --table --raw --help" -- "$word")) ;;
        get) COMPREPLY=($(compgen -W "--dir --table --raw --hex --help" -- "$word")) ;;
        del) COMPREPLY=($(compgen -W "--dir --table --from --to --prefix --help" -- "$word")) ;;
        list) COMPREPLY=($(compgen -W "--dir --table --from --to --prefix --limit --last --reverse --keys --values --format --raw --hex --help" -- "$word")) ;;
        count) COMPREPLY=($(compgen -W "--dir --table --from --to --prefix --help" -- "$word")) ;;
        import) COMPREPLY=($(compgen -W "--dir --table --named --format --raw --skip --delete --keep-old --dry-run --capacity --memory --help" -- "$word")) ;;
        export) COMPREPLY=($(compgen -W "--dir --table --named --from --to --prefix --format --mapsize --help" -- "$word")) ;;
        tables) COMPREPLY=($(compgen -W "--dir --create --drop --help" -- "$word")) ;;
        replay) COMPREPLY=($(compgen -W "--writers --places --m --frame --segments --capacity --memory --dir --take --raw --reuse --most-segments --help" -- "$word")) ;;
        serve) COMPREPLY=($(compgen -W "--places --m --frame --segments --capacity --memory --dir --tables --raw --most-segments --log --every --help" -- "$word")) ;;
        shell) COMPREPLY=($(compgen -W "--dir --help" -- "$word")) ;;
        threads) COMPREPLY=($(compgen -W "--writers --places --m --frame --segments --capacity --dir --limit --flush-every --clean-at --tries --readers --forget --reuse --most-segments --help" -- "$word")) ;;
        scan) COMPREPLY=($(compgen -W "--dir --help" -- "$word")) ;;
        print) COMPREPLY=($(compgen -W "--dir --help" -- "$word")) ;;
        stats) COMPREPLY=($(compgen -W "--dir --format --frames --help" -- "$word")) ;;
        picture) COMPREPLY=($(compgen -W "--dir --capacity --help" -- "$word")) ;;
        verify) COMPREPLY=($(compgen -W "--dir --format --help" -- "$word")) ;;
        copy) COMPREPLY=($(compgen -W "--dir --to --compact --m --frame --segments --capacity --help" -- "$word")) ;;
        follow) COMPREPLY=($(compgen -W "--dir --to --every --once --help" -- "$word")) ;;
        salvage) COMPREPLY=($(compgen -W "--dir --to --help" -- "$word")) ;;
        restore) COMPREPLY=($(compgen -W "--dir --to --frame --time --help" -- "$word")) ;;
        upgrade) COMPREPLY=($(compgen -W "--dir --help" -- "$word")) ;;
    esac
}
complete -F _bwlog bwlog
