"""Hostile scripts: the fault at which a script ends, as docs/USING.md tells it."""

import re

from hostile.program import Otherwise
from hostile.reader import told

WORDS = {"put": 4, "del": 3, "turn": 2, "flush": 1, "settle": 1, "page": 2, "get": 2, "evict": 2, "clean": 1, "roll": 1, "add": 1, "history": 1, "cuts": 1, "segments": 1, "leases": 1, "dump": 2}


def is_number(text, most):
    return re.fullmatch(rb"[0-9]+", text) is not None and int(text) <= most


def is_word(text, least, most):
    if text.startswith(b"0x"):
        return re.fullmatch(rb"([0-9a-fA-F]{2})*", text[2:]) is not None and least <= len(text) // 2 - 1 <= most
    return least <= len(text) <= most


def fault_of(line, writers, known):
    """What a line of a script is told for, or nothing."""
    if line == b"" or line.startswith(b"#"):
        return None
    if len(line) > 4096:
        return "line too long"
    if any(not 0x20 <= it <= 0x7E for it in line):
        return "bad byte"
    words = [it for it in line.split(b" ") if it]
    name = words[0].decode() if words else ""
    if name not in known:
        return "unknown command"
    if len(words) != WORDS[name]:
        return "wrong number of words"
    if name in ("put", "del"):
        if not is_number(words[1], writers - 1):
            return "bad number"
        is_right = is_word(words[2], 1, 128) and (name == "del" or is_word(words[3], 0, 512))
        return None if is_right else "bad word"
    if name == "get":
        return None if is_word(words[1], 1, 128) else "bad word"
    if name == "dump" and words[1].lstrip(b"0") != b"1":
        return "bad number"
    if len(words) == 2 and not is_number(words[1], (1 << 32) - 1):
        return "bad number"
    return None


def lines_in(text):
    """The lines of a script: a CR before the end of a line is none of it."""
    lines = text.split(b"\n")
    ended, last = lines[:-1], lines[-1]
    return [it[:-1] if it.endswith(b"\r") else it for it in ended] + [last] * (last != b"")


def drawn_word(draw, least, most):
    kind = draw.randrange(10)
    if kind < 5:
        return draw.choice([b"k", b"kk", b"a=b", b"0X41", b"#", draw.key()[:most]]) or b"k"
    length = draw.choice([least, most, most + 1, most - 1, draw.randrange(least, most + 1)])
    if kind < 8:
        return b"0x" + bytes(draw.choice(b"0123456789abcdefABCDEF") for _ in range(2 * length + draw.is_so(20)))
    if kind == 8:
        return bytes(draw.choice(b"abz~!") for _ in range(length)) or b"k"
    return draw.choice([b"0x", b"0xg0", b"0x6", b"0x+1", b"0x 6"])


def drawn_number(draw, most):
    return draw.choice([b"0", b"1", b"%d" % draw.randrange(most + 1), b"%d" % most, b"%d" % (most + 1), b"4294967295", b"4294967296", b"+1", b"-1", b"", b"x", b"1.0", b"00001", b"1" * 30])


def drawn_line(draw, writers, names):
    name = draw.choice(names)
    words = [name.encode()]
    if name in ("put", "del"):
        words.append(b"%d" % draw.randrange(writers) if not draw.is_so(30) else drawn_number(draw, writers - 1))
        words.append(drawn_word(draw, 1, 128) if draw.is_so(8) else draw.choice([b"k", b"l", b"0x6b6b", b"m%d" % draw.randrange(30)]))
        if name == "put":
            words.append(drawn_word(draw, 0, 512) if draw.is_so(8) else b"v%d" % draw.randrange(9))
    elif name == "get":
        words.append(drawn_word(draw, 1, 128) if draw.is_so(4) else b"k")
    elif WORDS[name] == 2:
        words.append(drawn_number(draw, 9) if draw.is_so(12) else b"%d" % draw.randrange(1, 4) if name != "dump" else b"1")
    if draw.is_so(60):
        words.insert(draw.randrange(len(words) + 1), draw.choice([b"x", b"1", b"\xc3\xa9"]))
    if draw.is_so(60):
        words.pop(draw.randrange(len(words)))
    line = draw.choice([b" "] * 20 + [b"  "]).join(words)
    if draw.is_so(80):
        line += b" " * draw.choice([1, 4096 - len(line), 4097 - len(line), 5000])
    if draw.is_so(80):
        at = draw.randrange(len(line) + 1)
        line = line[:at] + bytes([draw.randrange(256)]) + line[at:]
    return line


def drawn_script(draw, writers, names):
    if draw.is_so(12):
        return draw.randbytes(draw.randrange(200))
    lines = [b"flush"] if "dump" in names else []
    for _ in range(draw.choice([0, 1, 5, 20, 60])):
        lines.append(draw.choice([b"", b"# a", b"#" * 5000]) if draw.is_so(20) else drawn_line(draw, writers, names))
    text = b"".join(it + draw.choice([b"\n"] * 20 + [b"\r\n"]) for it in lines)
    return text[:-1] if draw.is_so(8) else text


def first_fault(text, writers, known):
    for number, line in enumerate(lines_in(text), 1):
        fault = fault_of(line, writers, known)
        if fault:
            return number, fault
    return None


def scripted(program, draw):
    """A case of a script: it ends at the first fault, behind the answers of the lines before it."""
    writers = draw.choice([1, 2, 64])
    known = sorted(WORDS) if draw.is_so(2) else sorted(set(WORDS) - {"dump"})
    names = [it for it in known if it != "clean"] if "dump" in known else known
    text = drawn_script(draw, writers, names + ["put"] * 8 + ["flush"] * 2)
    if "dump" not in known and first_fault(text, writers, sorted(WORDS)) != first_fault(text, writers, known):
        return "left out"
    words = ["replay", "--writers=%d" % writers, "--places=%d" % draw.choice([1, 8, 100]), "--segments=8"]
    status, output, errors = program.run(words, text)
    fault = first_fault(text, writers, known)
    if not fault:
        is_refused = any(it.startswith(b"refused ") for it in output.split(b"\n"))
        if status != (4 if is_refused else 0) or errors:
            raise Otherwise("a script without a fault ends %r" % ((status, output[-200:], errors),))
        return "whole"
    number, fault_text = fault
    before = b"".join(it + b"\n" for it in text.split(b"\n")[: number - 1])
    if (status, errors) != (3, ("script line %d: %s\n" % (number, fault_text)).encode()):
        raise Otherwise("a script with %s in line %d ends %r" % (fault_text, number, (status, output[-200:], errors)))
    if program.run(words, before)[1] != output:
        raise Otherwise("other answers before the fault in line %d" % number)
    return fault_text


def threaded(program, draw):
    """A case of a script of writers: its fault is told before any of them starts."""
    text = drawn_script(draw, 2, ["put", "del"])
    status, output, errors = program.run(["threads", "--segments=64"], text)
    fault = first_fault(text, 2, ["put", "del"])
    if fault:
        if (status, output, errors) != (3, b"", ("script line %d: %s\n" % fault).encode()):
            raise Otherwise("writers with %s in line %d end %r" % (fault[1], fault[0], (status, output[:200], errors)))
        return fault[1]
    count = sum(it != b"" and not it.startswith(b"#") for it in lines_in(text))
    if status != 0 or errors or not output.startswith(b"entries %d\n" % count):
        raise Otherwise("writers of %d lines end %r" % (count, (status, output[:200], errors)))
    return "whole"


def in_lines(program, draw):
    """A case of lines that a scan reads: some are no segment."""
    lines = [draw.choice([b"", b"42", b"4", b"zz", b"0x42", b"42 42", b"4\xff", b"#", b"FfAa00", b"42\t", b"4" * 300]) for _ in range(draw.randrange(1, 6))]
    if draw.is_so(30):
        lines.append(draw.choice([b"5", b"\t"]) * draw.choice([2097152, 2097153]))
    text = b"\n".join(lines) + b"\n" * draw.randrange(2)
    status, output, errors = program.run(["scan"], text)
    read = []
    for number, line in enumerate(lines_in(text), 1):
        fault = None
        if len(line) > 2097152:
            fault = "line too long"
        elif any(not 0x20 <= it <= 0x7E for it in line):
            fault = "bad byte"
        elif not re.fullmatch(rb"([0-9a-fA-F]{2})*", line):
            fault = "bad word"
        if fault:
            if (status, output, errors) != (3, b"", ("script line %d: %s\n" % (number, fault)).encode()):
                raise Otherwise("a scan with %s in line %d ends %r" % (fault, number, (status, output, errors)))
            return fault
        read.append(bytes.fromhex(line.decode()))
    if (status, output, errors) != (4, told(read).encode(), b""):
        raise Otherwise("a scan of %r ends %r" % (read[:3], (status, output, errors)))
    return "whole"
