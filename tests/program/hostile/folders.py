"""Hostile folders: the bytes of hostile segments, foreign names, no room, no right, another process."""

import fcntl
import os
import resource
import shutil
import signal
import stat
import subprocess
import time

from hostile.program import LIMIT, Otherwise, Program, held_in
from hostile.reader import box_of, is_part, told, word


def laid(folder, segments):
    os.makedirs(folder)
    for lease, data in enumerate(segments):
        with open(os.path.join(folder, "segment-%04d.bw" % lease), "wb") as file:
            file.write(data)


def begins_anew(segments):
    """What a run prints first over bytes of which none was ever durable: a part of a header, or the header of segment 1 and a tail."""
    held = [it for it in segments if it]
    if not held:
        return ""
    if len(held) > 1 or not is_part(held[0]) and box_of(held[0]).number != 1:
        return None
    return "frames 0 0 tail %d\n" % len(held[0])


def refused(program, segments, folder, draw, wanted):
    """What recovery refuses a run refuses as well, and makes and changes nothing; but where nothing was ever durable it begins anew."""
    before = looked_at(folder)
    words = draw.choice([["replay"], ["threads", "--segments=24"]])
    answer = program.run([*words, "--capacity=300000", "--dir=" + folder], b"put 0 k v\n")
    anew = begins_anew(segments) if wanted == "refused E12 Empty\n" else None
    if anew is not None:
        first = answer[1].decode().split("\n", 1)[-1] if anew else anew
        if answer[0] != 0 or answer[2] or not first.startswith(anew):
            raise Otherwise("%s over what begins anew answers %r" % (words, answer))
        return "begun anew"
    if answer != (4, wanted.encode(), b""):
        raise Otherwise("%s answers %r, and the reader %r" % (words, answer, wanted))
    if looked_at(folder) != before:
        raise Otherwise("a refused %s changed the folder" % words)
    return "refused"


def lived(program, segments, folder, draw):
    """A case of a folder: a store goes on from these segments where a scan finds pages, and has them."""
    segments = segments[:60]
    wanted = told(segments)
    laid(folder, segments)
    if wanted.startswith("refused "):
        return refused(program, segments, folder, draw, wanted)
    lines = wanted.splitlines()
    pages = lines[2:]
    numbers = range(1, len(pages) + 1)
    asked = ["page %d" % it for it in numbers]
    script = asked + ["evict %d" % it for it in numbers] * 2 + asked
    wants = pages + [None] * (2 * len(pages)) + pages
    pairs = {}
    for line in pages:
        pairs.update(it.split("=") for it in line.split(" ")[6:])
    if int(lines[1].split(" ")[2]) < 1 << 62:
        records = [(draw.key(), draw.value()) for _ in range(draw.randrange(1, 9))]
        for key, value in records:
            script += ["put 0 0x%s 0x%s" % (key.hex(), value.hex()), "settle"]
            wants += ["ok", None]
            pairs[word(key)] = word(value)
        for _ in range(draw.randrange(3)):
            script += ["clean", "add"]
            wants += [None, None]
        gets = ["get " + ("0x" + key.encode().hex() if not key.startswith("0x") else key) for key in pairs]
        script += gets
        wants += ["value " + value for value in pairs.values()]
    words = ["replay", "--capacity=300000", "--segments=%d" % (len(segments) + 3), "--places=16", "--dir=" + folder]
    status, output, errors = program.run(words, ("\n".join(script) + "\n").encode())
    answers = output.decode().splitlines()
    if status not in (0, 4) or errors or len(answers) != len(script) + 2 or answers[1] != lines[1]:
        raise Otherwise("replay over lawful segments answers %r, %r" % (status, answers[:3] + [errors]))
    for line, want, answer in zip(script, wants, answers[2:]):
        if want is not None and answer != want:
            raise Otherwise("%s: %r, and the reader %r" % (line, answer, want))
        if want is None and answer.startswith("refused ") and answer not in ("refused E11 NothingOld", "refused E20 NoLease"):
            raise Otherwise("%s: %r" % (line, answer))
    return again(program, folder, pairs if "settle" in script else None)


def again(program, folder, pairs):
    """Behind a run: the scan is the reader's, and its pairs are these."""
    held = list(held_in(folder).values())
    wanted = told(held)
    answer = program.run(["scan", "--dir=" + folder])
    if answer != (0, wanted.encode(), b""):
        raise Otherwise("scan behind the run answers %r, and the reader %r" % (answer, wanted))
    has = dict(it.split("=") for line in wanted.splitlines()[2:] for it in line.split(" ")[6:])
    if pairs is not None and has != pairs:
        raise Otherwise("other pairs behind the run: %r, wanted %r" % (has, pairs))
    return "lived"


FOREIGN = ["segment-1.bw", "segment-00001.bw", "SEGMENT-0000.BW", "segment-0000.bw~", "segment-0000", "segment-4096.bw", "segment-+001.bw", ".hidden", "segment-000\u0661.bw", "a\nb"]


def looked_at(folder):
    """All names of a folder, with their kinds and bytes."""
    found = {}
    for name in os.listdir(folder):
        path = os.path.join(folder, name)
        kind = os.lstat(path).st_mode
        held = b""
        if stat.S_ISREG(kind) and os.access(path, os.R_OK):
            with open(path, "rb") as file:
                held = file.read()
        found[name] = (stat.S_IFMT(kind), held)
    return found


def asked(program, folder, wanted, **more):
    """A scan and a run of a folder answer so; a text that begins with `folder` stands on standard error, and the status is 6."""
    is_refused = wanted.startswith("folder ")
    before = looked_at(folder)
    answer = program.run(["scan", "--dir=" + folder], **more)
    if is_refused:
        right = answer[0] == 6 and answer[1] == b"" and answer[2].startswith(wanted.encode()) and answer[2].count(b"\n") == 1
    else:
        right = answer == (4 if wanted.startswith("refused ") else 0, wanted.encode(), b"")
    if not right:
        raise Otherwise("scan of the folder answers %r, not %r" % (answer, wanted))
    if looked_at(folder) != before:
        raise Otherwise("a scan changed the folder")
    if is_refused:
        answer = program.run(["replay", "--dir=" + folder], b"put 0 k v\nflush\n", **more)
        if answer[0] != 6 or answer[1] != b"" or not answer[2].startswith(wanted.encode()):
            raise Otherwise("replay over the folder answers %r, not %r" % (answer, wanted))
        if looked_at(folder) != before:
            raise Otherwise("a refused replay changed the folder")


def foreign_names(program, folder, segments, draw):
    laid(folder, segments)
    for name in draw.sample(FOREIGN, draw.randrange(1, 5)):
        path = os.path.join(folder, name)
        if draw.is_so(3):
            os.mkdir(path)
        else:
            with open(path, "wb") as file:
                file.write(draw.randbytes(30))
    os.symlink("nowhere", os.path.join(folder.encode(), b"\xff\xfe"))
    asked(program, folder, told(segments))


def put_there(path, draw):
    """Something that is no plain file."""
    kind = draw.randrange(4)
    if kind == 0:
        os.mkdir(path)
    elif kind == 1:
        os.mkfifo(path)
    else:
        os.symlink("nowhere" if kind == 2 else os.path.basename(draw.choice(["segment-0000.bw", "."])), path)


def no_plain_segment(program, folder, segments, draw):
    laid(folder, segments)
    put_there(os.path.join(folder, "segment-%04d.bw" % draw.randrange(len(segments), 64)), draw)
    asked(program, folder, "folder %s: what has the name of a file is no plain file\n" % folder)


def no_plain_lock(program, folder, segments, draw):
    laid(folder, segments)
    put_there(os.path.join(folder, "lock"), draw)
    asked(program, folder, "folder %s: what has the name of a file is no plain file\n" % folder)


def a_file_as_the_folder(program, folder, segments, draw):
    with open(folder, "wb") as file:
        file.write(b"".join(segments))
    for words in (["scan"], ["replay"], ["threads"]):
        answer = program.run([*words, "--dir=" + folder], b"")
        if answer[0] != 6 or answer[1] != b"" or not answer[2].startswith(b"folder "):
            raise Otherwise("%s of a file answers %r" % (words, answer))


def in_use(program, folder, segments, draw):
    """Somebody holds the lock: a look beside a look goes, all else is refused."""
    laid(folder, segments)
    path = os.path.join(folder, "lock")
    with open(path, "wb") as lock:
        is_shared = draw.is_so(2)
        fcntl.flock(lock, fcntl.LOCK_SH if is_shared else fcntl.LOCK_EX)
        if not is_shared:
            return asked(program, folder, "folder %s: in use\n" % folder)
        asked(program, folder, told(segments))
        answer = program.run(["replay", "--dir=" + folder], b"put 0 k v\nflush\n")
        if answer != (6, b"", ("folder %s: in use\n" % folder).encode()):
            raise Otherwise("replay beside a look answers %r" % (answer,))
    return None


def until(is_so):
    """Waits until that is so; not for ever."""
    end = time.monotonic() + LIMIT
    while not is_so() and time.monotonic() < end:
        time.sleep(0.001)


def two_processes(program, folder, segments, draw):
    """A second process is refused while the first one lives, and goes on behind it."""
    words = [program.path, "replay", "--dir=" + folder]
    with subprocess.Popen(words, stdin=subprocess.PIPE, stdout=subprocess.PIPE, stderr=subprocess.PIPE) as first:
        first.stdin.write(b"put 0 k v\nflush\n")
        first.stdin.flush()
        until(lambda: os.path.isdir(folder) and any(held_in(folder).values()))
        answer = program.run(["replay", "--dir=" + folder], b"")
        if answer != (6, b"", ("folder %s: in use\n" % folder).encode()):
            raise Otherwise("a second process answers %r" % (answer,))
        output, errors = first.communicate(b"put 0 l w\nflush\n")
    if first.returncode != 0 or not output.endswith(b"frame 2\n") or errors:
        raise Otherwise("the first of two processes answers %r" % ((first.returncode, output, errors),))
    again(program, folder, {"k": "v", "l": "w"})


def refused_bytes(limit):
    """The system refuses bytes of a file behind so many."""

    def set_limit():
        signal.signal(signal.SIGXFSZ, signal.SIG_IGN)
        resource.setrlimit(resource.RLIMIT_FSIZE, (limit, limit))

    return set_limit


def filled(program, folder, draw, **more):
    """A run whose appends fail at some time: what it flushed is there, and the scan is the reader's."""
    script = "".join("put 0 k%03d %s\nflush\n" % (it, "v" * 100) for it in range(100))
    status, output, errors = program.run(["replay", "--dir=" + folder, "--capacity=65560", "--segments=8"], script.encode(), **more)
    answers = output.decode().splitlines()
    if status == 6 and not answers and errors.startswith(b"folder "):
        return
    flushed = sum(it.startswith("frame ") for it in answers)
    if status != 4 or errors or not any(it.startswith("refused E6 Device lease ") for it in answers):
        raise Otherwise("a run on a full disk answers %r" % ((status, answers[-3:], errors),))
    held = list(held_in(folder).values())
    wanted = told(held)
    answer = program.run(["scan", "--dir=" + folder])
    if answer != (4 if wanted.startswith("refused ") else 0, wanted.encode(), b""):
        raise Otherwise("scan of a full disk answers %r, and the reader %r" % (answer, wanted))
    if flushed and not 0 <= int(wanted.splitlines()[1].split(" ")[2]) - flushed <= 1:
        raise Otherwise("%d frames were told, and the scan tells %r" % (flushed, wanted))


def a_full_file(program, folder, segments, draw):
    filled(program, folder, draw, preexec_fn=refused_bytes(draw.choice([0, 1, 23, 24, 25, 44, 100, 1000, 5000, draw.randrange(9000)])))


HOSTILE = [foreign_names, no_plain_segment, no_plain_lock, a_file_as_the_folder, in_use, two_processes, a_full_file]


# ---- folders of which the machine itself is asked: once each


def mounted(folder, options):
    os.makedirs(folder, exist_ok=True)
    return subprocess.run(["mount", "-t", "tmpfs", "-o", options, "tmpfs", folder], capture_output=True, check=False).returncode == 0


def a_full_disk(program, folder, segments, draw):
    if not mounted(folder, "size=12k"):
        return "no disk can be made here"
    try:
        filled(program, folder, draw)
    finally:
        subprocess.run(["umount", folder], check=False)
    return None


def a_folder_read_only(program, folder, segments, draw):
    if not mounted(folder, "size=4m"):
        return "no disk can be made here"
    try:
        for lease, data in enumerate(segments):
            with open(os.path.join(folder, "segment-%04d.bw" % lease), "wb") as file:
                file.write(data)
        subprocess.run(["mount", "-o", "remount,ro", folder], check=True, capture_output=True)
        before = looked_at(folder)
        answer = program.run(["scan", "--dir=" + folder])
        if answer[1] != told(segments).encode():
            raise Otherwise("scan of a read-only folder answers %r" % (answer,))
        answer = program.run(["replay", "--dir=" + folder], b"put 0 k v\nflush\n")
        if answer[0] != 6 or answer[1] or not answer[2].startswith(b"folder "):
            raise Otherwise("replay over a read-only folder answers %r" % (answer,))
        if looked_at(folder) != before:
            raise Otherwise("a read-only folder was changed")
    finally:
        subprocess.run(["umount", folder], check=False)
    return None


def no_right_to_read(program, folder, segments, draw):
    """The program as a user who may not read one file, or not the folder."""
    laid(folder, segments)
    more = {}
    if os.getuid() == 0:
        more = {"user": 65534, "group": 65534, "extra_groups": []}
        os.chmod(os.path.dirname(folder), 0o755)
        os.chmod(folder, 0o777)
        copy = os.path.join(os.path.dirname(folder), "bwlog")
        shutil.copy(program.path, copy)
        os.chmod(copy, 0o755)
        program = Program(copy)
        try:
            program.run(["scan"], **more)
        except PermissionError:
            return "no other user may run the program here"
    for path in (os.path.join(folder, "segment-0000.bw"), folder):
        kept = os.stat(path).st_mode
        os.chmod(path, 0)
        answer = program.run(["scan", "--dir=" + folder], **more)
        if answer[0] != 6 or answer[1] or not answer[2].startswith(b"folder "):
            raise Otherwise("scan of what may not be read answers %r" % (answer,))
        answer = program.run(["replay", "--dir=" + folder], b"put 0 k v\nflush\n", **more)
        if answer[0] != 6 or answer[1] or not answer[2].startswith(b"folder "):
            raise Otherwise("replay over what may not be read answers %r" % (answer,))
        os.chmod(path, kept)
    return None


ONCE = [a_full_disk, a_folder_read_only, no_right_to_read]
