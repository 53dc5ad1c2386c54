#!/usr/bin/env python3
"""Sessions that are kept in a file (`--keep FILE`), beside one session over all of their lines.

usage: tests/programs/keep.py FOLDER [--kills N] [--seed N]     the folder of the six programs as Cargo built them
"""
import os
import random
import resource
import signal
import subprocess
import sys
import tempfile
import time

FOLDER, KILLS, SEED = "", 200, 1


def program(name):
    return os.path.join(FOLDER, f"ivl_{name}")


def told(name, lines, keep=None, **how):
    """The status, the answers and the faults of a session over these lines."""
    words = [program(name), *(["--keep", keep] if keep else [])]
    done = subprocess.run(words, input="".join(f"{it}\n" for it in lines).encode(), capture_output=True, timeout=120, check=False, **how)
    return done.returncode, done.stdout.decode(), done.stderr.decode()


def expect(what, found, wanted):
    if found != wanted:
        sys.exit(f"keep: {what}: {found!r:.400} where {wanted!r:.400} should be")


def line_of(name, chance):
    """A random line of a program, sometimes one that is refused."""
    number = chance.randint
    if name == "ports":
        return chance.choice([f"take {number(1, 9)}", f"give {number(1024, 1100)} {number(1024, 1100)}", "free", "tkae 3", f"take {number(1, 70000)}", "# take 9", "help",
                              f"take {number(1, 9)} at {number(1024, 1100)}", f"take 3 above {number(1024, 1100)}"])
    if name == "blocks":
        return chance.choice([f"take {number(1, 99)}", f"give {number(0, 300)} {number(0, 300)}", "free", "largest", "take x"])
    if name == "run":
        a, b, c = (chance.choice("abc") for _ in range(3))
        return chance.choice([f"set {a} {number(-9, 0)} {number(0, 9)}", f"union {a} {b} {c}", f"plus {a} {b} {c}", f"show {a}", f"size {a}", "oops", f"diff {a} {b} {c}"])
    if name == "solve":
        x, y = (chance.choice("xyz") for _ in range(2))
        return chance.choice([f"var {x} {number(0, 3)} {number(4, 9)}", f"cut {x} {number(0, 5)} {number(5, 9)}", f"{x} + {number(0, 2)} <= {y}", "show", "count",
                              f"min {x}", "different x y", "limit 1000", "oops", "go on"])
    if name == "ranges":
        return chance.choice([f"i {number(-9, 0)}..{number(0, 9)}", f"k {number(-2, 0)}..{number(0, 2)}", f"length {number(0, 12)}", "check", "length -"])
    room, day = chance.choice(["red", "blue"]), number(1, 25)
    return chance.choice([f"room {room}", "rooms", f"show {room}", f"cancel {room} 2026-03-{day:02} 2026-03-{day + 1:02}", f"book {room} 2026-03-{day:02} 2026-03-{day + 3:02} {chance.choice(['anna', 'bo'])}", f"who {room} 2026-03-{day:02}",
                          f"free 2026-03-01 2026-03-31", f"gap {room} 2 2026-03-01 2026-03-31", "of anna", "book"])


def restarts(work):
    """Six programs, each in some sessions: together they answer what one session answers."""
    for name in ("run", "solve", "ports", "blocks", "ranges", "calendar"):
        chance = random.Random(f"{SEED} {name}")
        lines = [line_of(name, chance) for _ in range(400)]
        path, answers, at = os.path.join(work, name), "", 0
        while at < len(lines):
            until = at + chance.randint(1, 120)
            status, text, fault = told(name, lines[at:until], path)
            expect(f"{name}, a session", (status, fault), (0, ""))
            answers, at = answers + text, until
        expect(name, (0, answers, ""), told(name, lines))


def faults(work):
    """What is not kept, what is refused, and what is left of it."""
    path = os.path.join(work, "faults")
    expect("a session", told("ports", ["take 8", "tkae", "free", "take 70000", "take 2"], path)[0], 0)
    with open(path, "rb") as file:
        kept = file.read()
    expect("the lines that are kept", [it.partition(b" ")[2] for it in kept.splitlines()[1:]], [b"take 8", b"take 2"])
    expect("a file of another program", told("blocks", ["free"], path), (1, "", f'ivl_blocks: {path}: not a file of this program: it begins with "intervallum ivl_ports 1"\n'))
    with open(path, "ab") as file:
        file.write(b"???????? take 5")
    status, text, fault = told("ports", ["free"], path)
    expect("a torn line", (status, text), (0, "64502 free: [1034..65535]\n"))
    expect("what is said of it", fault, f"ivl_ports: {path}: the last line is torn and is left out; it was never answered\n")
    with open(path, "wb") as file:
        file.write(kept.replace(b"take 8", b"take 9"))
    status, text, fault = told("ports", ["take 1"], path)
    expect("a line that is answered otherwise", (status, text), (1, ""))
    expect("what is said of it", fault, f"ivl_ports: {path}: line 2, `take 9`, is not answered as it was\n")
    with open(path, "wb") as file:
        file.write(kept + b"what\n")
    expect("a line that is damaged", told("ports", ["free"], path)[:2], (1, ""))
    expect("no name", told("ports", [], "")[0], 0)
    done = subprocess.run([program("ports"), "--keep"], capture_output=True, check=False)
    expect("--keep alone", (done.returncode, done.stderr), (2, b"ivl_ports: --keep needs the name of a file\n"))


def two_programs(work):
    """The second of two programs on one file is refused, whatever the name of the file, and the first goes on."""
    path = os.path.join(work, "two")
    os.mkdir(os.path.join(work, "folder"))
    first = subprocess.Popen([program("ports"), "--keep", path], stdin=subprocess.PIPE, stdout=subprocess.PIPE)
    first.stdin.write(b"take 8\n")
    first.stdin.flush()
    expect("the first", first.stdout.readline(), b"[1024..1031]\n")
    other = os.path.join(work, "folder", "..", "two")
    expect("the second", told("ports", ["take 8"], other), (1, "", f"ivl_ports: {other}: another program keeps its lines in it\n"))
    first.stdin.write(b"take 8\n")
    first.stdin.close()
    expect("the first, afterwards", (first.stdout.read(), first.wait()), (b"[1032..1039]\n", 0))


def no_room(work):
    """A file that may not grow: the line is not carried out, and what was kept stands."""
    path = os.path.join(work, "full")

    def limited():
        signal.signal(signal.SIGXFSZ, signal.SIG_IGN)
        resource.setrlimit(resource.RLIMIT_FSIZE, (1000, 1000))

    lines = ["take 1"] * 100
    status, text, fault = told("ports", lines, path, preexec_fn=limited)
    expect("no room", (status, "a line cannot be kept, and was not carried out" in fault), (1, True))
    answered = text.count("\n")
    expect("what was answered", 0 < answered < 100, True)
    expect("what is kept", told("ports", ["free"], path), (0, f"{64512 - answered} free: [{1024 + answered}..65535]\n", ""))


# What the program tells of its state, and whether its lines can be had.
LOOKS = {"run": [f"show {name}" for name in "abc"], "ports": ["free"], "ranges": ["check"], "calendar": ["rooms", "show red", "show blue", "of anna"]}
KEPT = {"solve": "no line of the solver tells its rules", "blocks": "no line of the program tells which blocks are free"}


def compacted(work):
    """The fewest lines of a session lead to the same state, and more lines go on from there; else the file stays."""
    for name in ("run", "solve", "ports", "blocks", "ranges", "calendar"):
        chance, path = random.Random(f"{SEED} {name} fewer"), os.path.join(work, f"fewer_{name}")
        lines = [line_of(name, chance) for _ in range(200)]
        told(name, lines, path)
        with open(path, "rb") as file:
            before = file.read()
        done = subprocess.run([program(name), "--compact", "--keep", path], capture_output=True, check=False)
        with open(path, "rb") as file:
            after = file.read()
        said = done.stderr.decode()
        if name in KEPT:
            expect(f"{name}, --compact", (done.returncode, after, said), (1, before, f"ivl_{name}: {path}: the lines stay as they are: {KEPT[name]}\n"))
            continue
        counts = [it.count(b"\n") - 1 for it in (after, before)]
        expect(f"{name}, --compact", (done.returncode, said), (0, f"ivl_{name}: {path}: {counts[0]} lines in place of {counts[1]}\n"))
        expect(f"{name}, fewer lines", counts[0] < counts[1], True)
        more = [*LOOKS[name], *(line_of(name, chance) for _ in range(50)), *LOOKS[name]]
        status, answers, fault = told(name, more, path)
        expect(f"{name}, a session after it", (status, fault), (0, ""))
        _, wanted, _ = told(name, lines + more)
        expect(f"{name}, the answers after it", answers, wanted[len(wanted) - len(answers) :])
    path, link = os.path.join(work, "linked"), os.path.join(work, "link")
    told("ports", ["take 1", "take 1"], path)
    os.chmod(path, 0o640)
    os.symlink(path, link)
    with open(path + ".compacting", "w", encoding="utf-8") as file:
        file.write("left half written")
    done = subprocess.run([program("ports"), "--keep", link, "--compact"], capture_output=True, check=False)
    expect("a link", (done.returncode, os.path.islink(link), os.stat(path).st_mode & 0o777), (0, True, 0o640))
    expect("what is beside it", os.path.exists(path + ".compacting"), False)
    expect("the ports of a link", told("ports", ["free"], link), (0, "64510 free: [1026..65535]\n", ""))
    escaped = os.path.join(work, "escaped")
    told("calendar", ["room a\tb"], escaped)
    done = subprocess.run([program("calendar"), "--keep", escaped, "--compact"], capture_output=True, check=False)
    expect("a name with a tab", (done.returncode, b"the lines stay as they are" in done.stderr), (1, True))
    done = subprocess.run([program("ports"), "--keep", os.path.join(work, "nothing"), "--compact"], capture_output=True, check=False)
    expect("no file", (done.returncode, os.path.exists(os.path.join(work, "nothing"))), (1, False))


def kills(work):
    """Killed at random moments, a session loses no line that it answered."""
    chance, path, taken = random.Random(SEED), os.path.join(work, "killed"), 0
    for number in range(KILLS):
        child = subprocess.Popen([program("ports"), "--keep", path], stdin=subprocess.PIPE, stdout=subprocess.PIPE, stderr=subprocess.PIPE)
        os.set_blocking(child.stdin.fileno(), True)
        child.stdin.write(b"take 1\n" * 30)
        child.stdin.flush()
        time.sleep(chance.random() * 0.02)
        child.kill()
        answers, _ = child.communicate()
        answered = answers.count(b"\n")
        status, text, _ = told("ports", ["free"], path)
        free = int(text.split()[0])
        now = 64512 - free
        # one line may have been carried out and not yet answered
        if status or not taken + answered <= now <= taken + answered + 1:
            sys.exit(f"keep: kill {number}: {answered} answered, {now - taken} kept, status {status}")
        taken = now
        if taken > 60000:
            os.remove(path)
            taken = 0


def many(work):
    """A million kept lines are read in some seconds."""
    path = os.path.join(work, "many")
    told("run", ["set a 1 5"], path)
    with open(path, "rb") as file:
        head, row = file.read().splitlines(keepends=True)
    with open(path, "wb") as file:
        file.write(head + row * 1_000_000)
    begun = time.process_time(), time.time()
    expect("a million lines", told("run", ["show a"], path), (0, "[1..5]\n", ""))
    return time.time() - begun[1]


def main(words):
    global FOLDER, KILLS, SEED
    FOLDER = words[0]
    KILLS = int(words[words.index("--kills") + 1]) if "--kills" in words else KILLS
    SEED = int(words[words.index("--seed") + 1]) if "--seed" in words else SEED
    with tempfile.TemporaryDirectory() as work:
        for part in (restarts, faults, two_programs, no_room, compacted, kills):
            part(work)
        took = many(work)
    print(f"keep: 2,400 lines in sessions that go on, {KILLS} kills, and faults, as one session has them; a million kept lines read in {took:.1f} s")


if __name__ == "__main__":
    main(sys.argv[1:])
