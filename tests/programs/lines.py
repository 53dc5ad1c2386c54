"""What the tests of the programs share: lines in random pieces, a full disk, and the comparison with a model.

A test is a function `lines(random, count)` that returns random lines, and a class with `answer(line)`, which returns the text
that the program has to write for a line, or an object for a line that may be answered in several ways: its `after(written, place)`
returns where an answer to it that stands at this place ends, or `None` if none stands there. Everything here is plain Python; nothing of the library is used.
"""

import argparse
import random
import subprocess
import threading
import time

# What a terminal, an editor or another program may do to a line.
SPOILED = [b"", b" ", b"\r", b"\xff", b"show \xe9", b"\t", b"frob 1 2", b"show show", b"9", b"#", b" # 1", b"#x y", b"help", b"help help", b"help frob", b"help 1 2"]


def escaped(word):
    """A word as an answer prints it, with its control characters escaped."""
    marks = {"\t": "\\t", "\r": "\\r"}
    text = (marks.get(mark, f"\\u{{{ord(mark):x}}}") if ord(mark) < 32 or 127 <= ord(mark) < 160 else mark for mark in word.decode())
    return "".join(text).encode()


def error(*parts):
    return b"error: " + b" ".join(parts) + b"\n"


def form(text):
    return error(b"write", text)


def unknown_command(name):
    return error(b"unknown command", escaped(name) + b"; help lists the commands")


class Commands:
    """A model whose lines are words between spaces, a command first: `answer_command(name, words)` answers it."""

    # what each command does, by its name, where the program has a `help`
    helps = None

    def answer(self, line):
        try:
            line.decode()
        except UnicodeDecodeError:
            return b"error: not UTF-8\n"
        words = [word for word in line.split(b" ") if word]
        if not words:
            return b""
        if self.helps is None:
            return self.answer_command(words[0], words[1:])
        if words[0] == b"help":
            return self.help(words[1:])
        return b"" if words[0].startswith(b"#") else self.answer_command(words[0], words[1:])

    def help(self, words):
        if len(words) > 1:
            return form(b"help or help COMMAND")
        if words:
            return self.helps[words[0]].encode() + b"\n" if words[0] in self.helps else unknown_command(words[0])
        return b", ".join(name for name in self.helps if name != b"help") + b"; help COMMAND tells what one does\n"


def in_pieces(pipe, data, dice):
    """Writes the data in pieces of random sizes, so that lines are cut anywhere."""
    place = 0
    while place < len(data):
        size = dice.choice([1, 2, 7, 100, 5000, 65536, 100000])
        pipe.write(data[place : place + size])
        pipe.flush()
        place += size
    pipe.close()


def run(program, data, dice):
    """Returns the status of the program, and what it wrote."""
    child = subprocess.Popen([program], stdin=subprocess.PIPE, stdout=subprocess.PIPE, stderr=subprocess.PIPE)
    writer = threading.Thread(target=in_pieces, args=(child.stdin, data, dice))
    writer.start()
    written = child.stdout.read()
    said = child.stderr.read()
    writer.join()
    return child.wait(), written, said


def place_after(written, place, text):
    """Where the answer that stands at this place ends, or None if it is another."""
    if not isinstance(text, bytes):
        return text.after(written, place)
    return place + len(text) if written[place : place + len(text)] == text else None


def check_run(program, make_model, make_lines, dice):
    """One session beside the model; returns how many lines it had."""
    model = make_model()
    lines = make_lines(dice, dice.choice([1, 5, 40, 300]))
    for _ in range(len(lines) // 20):
        lines.insert(dice.randrange(len(lines)), dice.choice(SPOILED))
    expected = [model.answer(line[:-1] if line.endswith(b"\r") else line) for line in lines]
    data = b"\n".join(lines) + dice.choice([b"", b"\n"])
    status, written, said = run(program, data, dice)
    place = 0
    for number, (line, text) in enumerate(zip(lines, expected), 1):
        after = place_after(written, place, text)
        if after is None:
            found = written[place : place + 80]
            raise SystemExit(f"line {number}, {line!r}: {found!r} was written where {text!r} should be")
        place = after
    if (status, written[place:], said) == (0, b"", b""):
        return len(lines)
    raise SystemExit(f"after {len(lines)} lines: status {status}, {said!r}, {written[place:]!r} at the end")


def check_full_disk(program, name, line):
    """A write that fails ends the program, and is told."""
    with open("/dev/full", "wb") as full:
        child = subprocess.run([program], input=line + b"\n", stdout=full, stderr=subprocess.PIPE, check=False)
    told = f"{name}: write failed\n".encode()
    if (child.returncode, child.stderr) != (1, told):
        raise SystemExit(f"on a full disk: status {child.returncode}, {child.stderr!r}")


def check_answers_are_seen(program, quick, count, slow):
    """The answers to quick lines, so many lines of them, are seen while a line that takes long is carried out, though all came at once."""
    child = subprocess.Popen([program], stdin=subprocess.PIPE, stdout=subprocess.PIPE)
    child.stdin.write(b"".join(line + b"\n" for line in [*quick, slow]))
    child.stdin.flush()
    began = time.monotonic()
    for _ in range(count):
        child.stdout.readline()
    seen = time.monotonic() - began
    child.stdout.readline()
    answered = time.monotonic() - began
    child.kill()
    child.wait()
    if 2 * seen > answered:
        raise SystemExit(f"{count} answers were seen after {seen:.1f} s, and that to {slow!r} after {answered:.1f} s")


def main(name, make_model, make_lines, full_disk_line, slow=()):
    """Compares the program with its model until the time is over. `slow` has, for each kind of line that may take long, quick lines, how many
    lines their answers have, and such a line."""
    parser = argparse.ArgumentParser()
    parser.add_argument("program", nargs="?", default=f"crates/{name}/out/{name}")
    parser.add_argument("--seconds", type=float, default=30)
    parser.add_argument("--lines", type=int, default=0, help="go on until so many lines were compared")
    parser.add_argument("--seed", type=int, default=random.randrange(2**32))
    options = parser.parse_args()
    dice = random.Random(options.seed)
    count = 0
    try:
        check_full_disk(options.program, name, full_disk_line)
        for quick_and_slow in slow:
            check_answers_are_seen(options.program, *quick_and_slow)
        end = time.monotonic() + options.seconds
        while time.monotonic() < end or count < options.lines:
            count += check_run(options.program, make_model, make_lines, dice)
    except SystemExit as fault:
        raise SystemExit(f"{name}: seed {options.seed}: {fault}") from None
    print(f"{name}: {count} lines, no difference")
