"""The child process `bwlog serve`: lines are asked, and each has one line of answer."""

from __future__ import annotations

import os
import select
import subprocess
import threading
from collections.abc import Sequence
from typing import IO

from ._errors import Ended, Error, end_by, refusal_in

# The version of the protocol that is spoken here.
PROTOCOL = "1"
# Why no request is answered: a call was left, or goes on; the store was closed; it is another's.
LEFT = "a call has no answer: it was left before that was read, or goes on"
CLOSED = "the store was closed"
FORKED = "the store is of the process that this one was forked from"
# No answer is longer: 1,024 pairs in hex have fewer bytes; of tables 1 MiB of pairs and one more.
LONGEST, LONGEST_OF_TABLES = 1 << 21, 1 << 26


def there(pipe: IO[bytes] | None) -> IO[bytes]:
    """A pipe that was asked for."""
    assert pipe is not None
    return pipe


def unrefused(answers: list[str]) -> list[str]:
    """These answers. The first one that refuses is raised."""
    for answer in answers:
        refusal = refusal_in(answer)
        if refusal is not None:
            raise refusal
    return answers


class Child:
    """A program that answers. One exchange goes on at a time: a thread waits for the one before it.

    From before its requests are written until its last answer was read an exchange is out of step.
    Whatever leaves it meanwhile, no later answer is taken for that of another request.
    """

    def __init__(self, words: Sequence[str], has_tables: bool = False) -> None:
        self._why: Error = Ended(LEFT)
        self._in_step = False
        self._longest = LONGEST_OF_TABLES if has_tables else LONGEST
        # The parts of a line whose end was not read yet, and how many bytes they have.
        self._unread: list[bytes] = []
        self._count = 0
        self._owner = os.getpid()
        # Whoever has it may come again, as from the handler of a signal.
        self.lock = threading.RLock()
        pipe = subprocess.PIPE
        self._process = subprocess.Popen(words, stdin=pipe, stdout=pipe, stderr=pipe, bufsize=0)
        self._input = there(self._process.stdin)
        # A pipe that is full is left, so that answers are read; the child's own end still waits.
        os.set_blocking(self._input.fileno(), False)
        self._output = there(self._process.stdout)
        self._errors = there(self._process.stderr)
        try:
            self._greeted(self._exchange(b"", 1)[0], has_tables)
            self._in_step = True
        except BaseException:
            self.end()
            raise

    def ask(self, line: bytes) -> str:
        """The answer to a request. What is refused is raised."""
        return unrefused(self.ask_all([line]))[0]

    def ask_all(self, lines: Sequence[bytes]) -> list[str]:
        """The answers to many requests, one each, refusals among them."""
        with self.lock:
            if os.getpid() != self._owner:
                raise Ended(FORKED)
            if not self._in_step:
                raise type(self._why)(*self._why.args)
            self._in_step = False
            answers = self._exchange(b"\n".join(lines) + b"\n" if lines else b"", len(lines))
            self._in_step = True
            return answers

    def ask_for(self, lines: Sequence[bytes], wanted: str) -> None:
        """Asks many requests whose only answer is this one. All are read before the first refusal
        is raised."""
        for answer in unrefused(self.ask_all(lines)):
            if answer != wanted:
                raise self.no_answer(answer)

    def no_answer(self, answer: str) -> Ended:
        """The error of an answer that is none to its request. It ends the exchanges."""
        with self.lock:
            self._in_step = False
            return self._lost("no answer to a request: %.200s" % answer)

    def end(self) -> None:
        """Ends the child, which flushes nothing."""
        with self.lock:
            if self._in_step:
                self._in_step, self._why = False, Ended(CLOSED)
            for file in (self._input, self._output, self._errors):
                file.close()
            if os.getpid() == self._owner:
                self._process.wait()

    def has_ended(self) -> bool:
        """Whether nothing is left of the child."""
        return self._input.closed

    def _exchange(self, requests: bytes, count: int) -> list[str]:
        """Sends requests, and reads so many answers meanwhile: neither pipe fills up for good."""
        answers: list[str] = []
        left = self._write(memoryview(requests))
        if left:
            waits = select.poll()
            waits.register(self._output, select.POLLIN)
            waits.register(self._input, select.POLLOUT)
        while len(answers) < count:
            if left:
                ready = [file for file, _ in waits.poll()]
                if self._input.fileno() in ready:
                    left = self._write(left)
                if self._output.fileno() not in ready:
                    continue
            answers += self._read_lines()
        if len(answers) > count or self._unread:
            raise self._lost("an answer that nobody asked for")
        return answers

    def _lost(self, why: str) -> Ended:
        """The error of answers that are none, which later calls raise too."""
        self._why = Ended(why)
        return Ended(why)

    def _write(self, requests: memoryview) -> memoryview:
        """Writes as many of the requests as the pipe takes, and gives the others."""
        try:
            return requests[os.write(self._input.fileno(), requests) :]
        except BlockingIOError:
            return requests
        except BrokenPipeError:
            return requests[:0]  # who reads the answers finds their end

    def _read_lines(self) -> list[str]:
        """The answers that some bytes end. If there are none, the child's words say why."""
        data = os.read(self._output.fileno(), 1 << 16)
        if not data:
            status = "bwlog ended with status %s"
            self._why = end_by(self._last_words() or status % self._process.wait())
            raise type(self._why)(*self._why.args)
        *lines, rest = data.split(b"\n")
        if lines:
            lines[0] = b"".join([*self._unread, lines[0]])
            self._unread, self._count = [], 0
        if rest:
            self._unread.append(rest)
            self._count += len(rest)
        try:
            if self._count <= self._longest:
                return [line.decode("ascii") for line in lines]
        except UnicodeDecodeError:
            pass
        raise self._lost("an answer that is no line")

    def _greeted(self, answer: str, has_tables: bool) -> None:
        """Refuses a program of another protocol: the first answer is `ready frame N protocol 1`,
        maybe with more after it; if tables are served, the word `tables`."""
        words = answer.split(" ")
        if words[0] == "refused":
            raise end_by(self._last_words() or answer)
        if words[:2] != ["ready", "frame"] or words[3:5] != ["protocol", PROTOCOL]:
            raise Ended(f"no protocol {PROTOCOL}: {answer}")
        if has_tables and "tables" not in words[5:]:
            raise Ended(f"no tables: {answer}")

    def _last_words(self) -> str:
        """What a child that ends has written on its standard error."""
        return self._errors.read().decode(errors="replace").strip()
