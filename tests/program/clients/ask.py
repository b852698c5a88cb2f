"""Answers requests of the table by the Python client, a line each: ask.py PROGRAM. The words of pairs
are hex in both. It stops at the end of its input, and says what it did not foresee on standard error."""

import os
import random
import signal
import sys
import threading

import hechdoram

PROGRAM = sys.argv[1]
THREADS, NAMED = 4, 400
LEFT = "a call has no answer: it was left before that was read, or goes on"


def bytes_of(word):
    return bytes.fromhex(word[2:])


def word_of(data):
    return "none" if data is None else "0x" + data.hex()


def pairs_of(words):
    data = [bytes_of(word) for word in words]
    return list(zip(data[::2], data[1::2]))


def changes_of(words):
    """Pairs after `put`, and keys after `del`, in their order."""
    found, words = [], list(words)
    while words:
        if words.pop(0) == "put":
            found.append((bytes_of(words.pop(0)), bytes_of(words.pop(0))))
        else:
            found.append((bytes_of(words.pop(0)), None))
    return found


def told(pair):
    return "none" if pair is None else "pair %s=%s" % (word_of(pair[0]), word_of(pair[1]))


def named(index):
    """The pair of this number, whose value says it."""
    return b"n%04d" % index, b"%d" % (index * 7919)


def raised(kind, call, *words):
    """What the call raised of this kind."""
    try:
        call(*words)
    except kind as error:
        return str(error)
    raise AssertionError("nothing was raised")


def leave():
    raise KeyboardInterrupt("left")


class Interrupts:
    """An interrupt that comes once, soon. Python drops one that comes within a destructor, so it is noted too."""

    def __init__(self, after):
        self.has_come = False
        signal.signal(signal.SIGALRM, self.come)
        signal.setitimer(signal.ITIMER_REAL, after)

    def come(self, number, frame):
        self.has_come = True
        raise KeyboardInterrupt


class Asked:
    """The requests of the table, a method each, over one store or reader."""

    def __init__(self):
        self.folder = self.pairs = None

    def do_open(self, folder, *options):
        self.folder = folder
        given = dict(option.split("=") for option in options)
        program = given.pop("program", PROGRAM)
        self.pairs = hechdoram.open(folder, program, **{name: int(number) for name, number in given.items()})
        return "opened"

    def do_other(self, folder):
        hechdoram.open(folder, PROGRAM).close()
        return "opened"

    def do_append(self, folder, key, value):
        with hechdoram.open(folder, PROGRAM) as store:
            store[bytes_of(key)] = bytes_of(value)
        return "ok"

    def do_read(self, folder):
        self.pairs = hechdoram.read(folder)
        return "read"

    def do_refresh(self):
        self.pairs.refresh()
        return "refreshed"

    def do_put(self, key, value):
        self.pairs[bytes_of(key)] = bytes_of(value)
        return "ok"

    def do_get(self, key):
        value = self.pairs.get(bytes_of(key))
        assert (value is not None) == (bytes_of(key) in self.pairs)
        return "none" if value is None else "value " + word_of(value)

    def do_del(self, key):
        self.pairs.delete(bytes_of(key))
        return "ok"

    def do_puts(self, *words):
        self.pairs.put_many(pairs_of(words))
        return "ok"

    def do_gets(self, *words):
        return " ".join(["values", *map(word_of, self.pairs.get_many([bytes_of(word) for word in words]))])

    def do_group(self, *words):
        self.pairs.group(changes_of(words))
        return "ok"

    def do_batch(self, *words):
        with self.pairs.batch() as batch:
            for key, value in changes_of(words):
                if value is None:
                    del batch[key]
                else:
                    batch[key] = value
        return "ok"

    def do_scan(self, *words):
        given = dict(word.split("=") for word in words if word != "reverse")
        bounds = {name: bytes_of(word) for name, word in given.items()}
        found = self.pairs.scan(bounds.pop("prefix", b""), reverse="reverse" in words, **bounds)
        return " ".join(["pairs", *("%s=%s" % (word_of(key), word_of(value)) for key, value in found)])

    def do_next(self, key):
        return told(self.pairs.at_or_above(bytes_of(key)))

    def do_prev(self, key):
        return told(self.pairs.at_or_below(bytes_of(key)))

    def do_below(self, key):
        return told(self.pairs.below(bytes_of(key)))

    def do_count(self):
        return "count %d" % len(self.pairs)

    def do_keep(self):
        frame = self.pairs.keep()
        return "no frame" if frame is None else "frame %d" % frame

    def do_reopen(self):
        return "reopened frame %d lost %d" % self.pairs.reopen()

    def do_stats(self):
        found = self.pairs.stats()
        return "stats durable %d failed %d" % (found["durable"], found["failed"])

    def do_clean(self):
        return "won %d" % self.pairs.clean()

    def do_add(self):
        return "added %d" % self.pairs.add()

    def do_backup(self, to):
        return "copied frame %d pages %d pairs %d" % self.pairs.backup(to)

    def do_close(self):
        self.pairs.close()
        return "closed"

    def do_abandon(self):
        self.pairs.abandon()
        return "abandoned"

    # ---- tables

    def do_topen(self, folder, *options):
        self.folder = folder
        given = dict(option.split("=") for option in options)
        program = given.pop("program", PROGRAM)
        self.pairs = hechdoram.open_tables(folder, program, **{name: int(number) for name, number in given.items()})
        return "opened"

    def table(self, name):
        return self.pairs.table(bytes_of(name))

    def do_tables(self):
        return " ".join(["tables", *map(word_of, self.pairs.tables())])

    def do_create(self, name):
        assert self.pairs.create_table(bytes_of(name)).name == bytes_of(name)
        return "ok"

    def do_drop(self, name):
        self.pairs.drop_table(bytes_of(name))
        return "ok"

    def do_tput(self, name, key, value):
        self.table(name)[bytes_of(key)] = bytes_of(value)
        return "ok"

    def do_tget(self, name, key):
        value = self.table(name).get(bytes_of(key))
        return "none" if value is None else "value " + word_of(value)

    def do_tdel(self, name, key):
        self.table(name).delete(bytes_of(key))
        return "ok"

    def do_tcount(self, name):
        return "count %d" % self.table(name).count()

    def do_tnext(self, name, key):
        return told(self.table(name).at_or_above(bytes_of(key)))

    def do_tscan(self, name, *words):
        bounds = {bound: bytes_of(word) for bound, word in (word.split("=") for word in words)}
        found = self.table(name).scan(bounds.pop("prefix", b""), **bounds)
        return " ".join(["pairs", *("%s=%s" % (word_of(key), word_of(value)) for key, value in found)])

    def do_tbatch(self, *words):
        words = list(words)
        with self.pairs.batch() as batch:
            while words:
                is_put, name, key = words.pop(0) == "put", self.table(words.pop(0)), bytes_of(words.pop(0))
                batch.put(name, key, bytes_of(words.pop(0))) if is_put else batch.delete(name, key)
        return "ok"

    def do_tmany(self, name, count):
        """Puts so many pairs in one batch, each seventh of them longer, and walks over them."""
        pairs = [(b"key%08d" % index, b"%d" % index * (700 if index % 7 == 0 else 1)) for index in range(int(count))]
        with self.pairs.batch() as batch:
            for key, value in pairs:
                batch.put(bytes_of(name), key, value)
        assert list(self.table(name).scan(b"key")) == pairs
        return "walked %d" % len(pairs)

    def do_kill(self, path):
        with open(path, encoding="ascii") as file:
            os.kill(int(file.read()), signal.SIGKILL)
        return "killed"

    # ---- whole runs

    def do_fill(self):
        for index in range(10**6):
            self.pairs[b"fill%05d" % index] = b"v" * 500

    def do_many(self, count):
        """Keeps so many records over a stop, and walks them both ways."""
        count = int(count)
        pairs = [(b"key%08d" % (index * 7919 % count), b"%d" % index) for index in range(count)]
        self.pairs.put_many(pairs)
        self.pairs.close()
        self.do_open(self.folder)
        pairs.sort()
        assert list(self.pairs.scan()) == pairs
        assert list(self.pairs.scan(start=pairs[-2000:][0][0], reverse=True)) == pairs[-2000:][::-1]
        return "kept %d" % len(self.pairs)

    def do_threads(self, count):
        """Four threads over one store: each has the answers of its own requests."""
        store, wrong, pairs = self.pairs, [], [named(index) for index in range(NAMED)]
        store.put_many(pairs)

        def ask(first):
            own = b"own%04d" % first
            for index in range(int(count)):
                key, value = pairs[(first + index) % NAMED]
                right = store.at_or_above(key) == (key, value) if index % 3 == 0 else store.get(key) == value
                if index % 500 == 0:
                    store[own] = key
                    right &= store.get_many([key] * 20 + [own]) == [value] * 20 + [key]
                if not right:
                    wrong.append(key)

        threads = [threading.Thread(target=ask, args=(first,)) for first in range(0, NAMED, NAMED // THREADS)]
        for thread in threads:
            thread.start()
        for thread in threads:
            thread.join()
        return "right" if not wrong else "%d answers were wrong" % len(wrong)

    def do_leave(self):
        """An interrupt between a question and its answer."""
        try:
            interrupts = Interrupts(0.1)
            self.pairs.get(b"k")
        except KeyboardInterrupt:
            assert interrupts.has_come
            return "left"
        return "not left"

    def ask_until_left(self, drawn):
        """Asks up to an interrupt, one by one and in bursts; each answer is that of its request."""
        store = self.pairs
        try:
            interrupts = Interrupts(drawn.uniform(0.0005, 0.004))
            while not interrupts.has_come:
                some = [named(drawn.randrange(NAMED)) for _ in range(drawn.choice((1, 1, 50)))]
                assert store.get_many([key for key, _ in some]) == [value for _, value in some]
                assert store.get(some[0][0]) == some[0][1] and store.at_or_above(some[0][0]) == some[0]
        except KeyboardInterrupt:
            pass

    def answers_right(self, drawn):
        """Whether the store answers, and rightly; else it has ended, and stays so."""
        store = self.pairs
        key, value = named(drawn.randrange(NAMED))
        try:
            for _ in range(3):
                assert store.get(key) == value
            return True
        except hechdoram.Ended:
            assert raised(hechdoram.Ended, store.get, key) == raised(hechdoram.Ended, store.keep) == LEFT
            assert raised(hechdoram.Ended, store.put_many, [(key, value)]) == LEFT
            return False

    def do_interrupts(self, count):
        """Calls that are left between question and answer: no later answer is that of another request."""
        drawn, ended = random.Random(7), 0
        self.pairs.put_many([named(index) for index in range(NAMED)])
        self.pairs.keep()
        for _ in range(int(count)):
            self.ask_until_left(drawn)
            if not self.answers_right(drawn):
                ended += 1
                self.pairs.abandon()
                self.do_open(self.folder)
        # A burst that is left, whose answers fill their pipe: nothing holds up the end of the store.
        self.pairs[b"long"] = b"v" * 512
        child, reads = self.pairs._child, iter([self.pairs._child._read_lines] * 2)
        child._read_lines = lambda: next(reads, leave)()
        assert raised(KeyboardInterrupt, self.pairs.get_many, [b"long"] * 1000) == "left"
        assert raised(hechdoram.Ended, self.pairs.get, b"long") == LEFT
        self.pairs.abandon()
        self.do_open(self.folder)
        # A handler that does not raise leaves no call; what it asks itself amid the call has no answer.
        store, heard = self.pairs, []
        signal.signal(signal.SIGALRM, lambda number, frame: heard.append(raised(hechdoram.Ended, store.get, b"n0001")))

        def read_amid_a_signal():
            del store._child._read_lines
            signal.raise_signal(signal.SIGALRM)
            return store._child._read_lines()

        store._child._read_lines = read_amid_a_signal
        assert store.get_many([named(1)[0]] * 50) == [named(1)[1]] * 50
        assert heard == [LEFT] and store.get(b"n0002") == named(2)[1]
        return "right" if ended > int(count) // 10 else "only %d calls were left" % ended

    # ---- of Python only

    def do_text(self, which="key"):
        if which == "value":
            self.pairs[b"key"] = "text"
        elif which == "prefix":
            self.pairs.scan("text")
        else:
            self.pairs["key"] = b"value"

    def do_broken(self, which):
        """A block that raises."""
        try:
            if which == "batch":
                with self.pairs.batch() as batch:
                    batch[b"a"] = b"1"
                    raise ZeroDivisionError
            with self.pairs as store:
                store[b"a"] = b"1"
                raise ZeroDivisionError
        except ZeroDivisionError:
            return "right"

    def do_mapping(self):
        """It is a mapping as any other, whose keys stand in order."""
        store, like = self.pairs, {}
        for pairs in (store, like):
            pairs.update({b"b": b"2", b"a": b"1"})
            pairs.update([(b"d", b"4"), (b"c", b"3")])
            assert pairs.setdefault(b"a", b"x") == b"1" and pairs.setdefault(b"e", b"5") == b"5"
            assert pairs.pop(b"b") == b"2" and pairs.pop(b"b", None) is None
            assert raised(KeyError, pairs.pop, b"b") and raised(KeyError, pairs.__delitem__, b"b")
            assert raised(KeyError, pairs.__getitem__, b"b") and pairs.get(b"b", b"y") == b"y"
            del pairs[b"c"]
        assert store == like and dict(store) == like and len(store) == len(like) == 3
        assert list(store) == list(store.keys()) == sorted(like) and list(reversed(store)) == sorted(like)[::-1]
        assert list(store.items()) == sorted(like.items()) and list(store.values()) == [b"1", b"4", b"5"]
        assert store.keys() >= {b"a", b"d"} and (b"a", b"1") in store.items() and b"4" in store.values()
        assert store.popitem() == (b"a", b"1") and bytearray(b"d") in store
        store.clear()
        return "right" if not store and list(store) == [] else "not empty"


def answer(asked, line):
    name, *words = line.split()
    try:
        return getattr(asked, "do_" + name)(*words)
    except hechdoram.Error as error:
        return "error %s %s" % (type(error).__name__, error)
    except TypeError as error:
        return "error TypeError %s" % error
    except OSError as error:
        return "error System %s" % error.strerror


def main():
    asked = Asked()
    for line in sys.stdin:
        print(answer(asked, line), flush=True)


main()
