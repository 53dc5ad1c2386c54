#!/usr/bin/env python3
"""The programs at a terminal, which a pseudo terminal stands for: prompts, `quit`, Control-D, Control-C, `rlwrap`; and none of it in a pipe.

usage: tests/programs/terminal.py FOLDER     the folder of the six programs as Cargo built them
"""
import os
import pty
import select
import signal
import subprocess
import sys
import tempfile
import time

FOLDER = ""
PROMPTS = {"run": "sets", "solve": "solve", "ports": "ports", "blocks": "blocks", "ranges": "ranges", "calendar": "calendar"}
LOST = "Ctrl-C ends it too; what was done is then lost, unless --keep FILE keeps it"


def expect(what, found, wanted):
    if found != wanted:
        sys.exit(f"terminal: {what}: {found!r:.500} where {wanted!r:.500} should be")


class Screen:
    """A program whose three streams are a terminal."""

    def __init__(self, name, *words, path="/nowhere"):
        self.text = ""
        self.child, self.master = pty.fork()
        if self.child == 0:
            # a shell has the commands that it runs in the background ignore Control-C
            signal.signal(signal.SIGINT, signal.SIG_DFL)
            os.environ["PATH"] = path
            os.environ.pop("INTERVALLUM_RLWRAP", None)
            program = os.path.join(FOLDER, f"ivl_{name}")
            os.execv(program, [program, *words])

    def read(self, until, seconds=60):
        """What the terminal shows, once this text is at its end; all of it where the program ends."""
        end = time.monotonic() + seconds
        shown = ""
        while not (until and shown.endswith(until)):
            ready, _, _ = select.select([self.master], [], [], max(0, end - time.monotonic()))
            if not ready:
                sys.exit(f"terminal: {shown!r} is shown, and not {until!r}")
            try:
                piece = os.read(self.master, 4096)
            except OSError:
                piece = b""
            if not piece:
                break
            shown += piece.decode().replace("\r\n", "\n")
        return shown

    def write(self, text):
        os.write(self.master, text.encode())

    def status(self):
        _, status = os.waitpid(self.child, 0)
        os.close(self.master)
        return os.waitstatus_to_exitcode(status)


def greeting(name, ctrl_c=LOST):
    lists = f"ivl_{name} --help" if name in ("run", "solve") else "help"
    lines = [f"one line at a time; {lists} lists them; quit ends it", ctrl_c, "rlwrap, once installed, adds history and editing"]
    return "".join(f"ivl_{name}: {line}\n" for line in lines)


def prompts():
    """Each program asks for each line by its name, and ends at `quit`, `exit` and Control-D."""
    for (name, prompt), end in zip(PROMPTS.items(), ["quit\n", "exit\n", "\x04", " quit \n", "quit\n", "\x04"]):
        screen = Screen(name)
        expect(f"{name}, the greeting", screen.read("> "), f"{greeting(name)}{prompt}> ")
        screen.write("oops\n")
        shown = screen.read("> ").splitlines()
        expect(f"{name}, a line", (shown[0], len(shown), shown[-1]), ("oops", 3, f"{prompt}> "))
        screen.write(end)
        screen.read(None)
        expect(f"{name}, the end", screen.status(), 0)


def a_session():
    screen = Screen("ports")
    screen.read("ports> ")
    for line, answer in [("take 8", "[1024..1031]\n"), ("", ""), ("free", "64504 free: [1032..65535]\n")]:
        screen.write(line + "\n")
        expect(line, screen.read("ports> "), f"{line}\n{answer}ports> ")
    screen.write("quit\n")
    expect("quit", (screen.read(None), screen.status()), ("quit\n", 0))


def kept(work):
    """A session that is kept goes on the next day, also after Control-C."""
    path = os.path.join(work, "kept")
    says = f"Ctrl-C ends it too; what was answered stays in {path}"
    screen = Screen("ports", "--keep", path)
    expect("kept, the greeting", screen.read("> "), greeting("ports", says) + "ports> ")
    screen.write("take 8\n")
    screen.read("ports> ")
    screen.write("quit\n")
    screen.read(None)
    expect("kept, quit", screen.status(), 0)
    screen = Screen("ports", "--keep", path)
    screen.read("ports> ")
    screen.write("take 2\n")
    expect("kept, the next day", screen.read("ports> "), "take 2\n[1032..1033]\nports> ")
    screen.write("\x03")
    screen.read(None)
    expect("Control-C", screen.status(), -signal.SIGINT)
    screen = Screen("ports", "--keep", path)
    screen.read("ports> ")
    screen.write("free\n")
    expect("after Control-C", screen.read("ports> "), "free\n64502 free: [1034..65535]\nports> ")
    screen.write("exit\n")
    screen.read(None)
    expect("kept, exit", screen.status(), 0)


def wrapped(work):
    """Where there is an `rlwrap` it starts the program, with a history by the program's name, and is not named."""
    said, tool = os.path.join(work, "said"), os.path.join(work, "rlwrap")
    with open(tool, "w", encoding="utf-8") as file:
        file.write(f'#!/bin/sh\necho "$1 $2" >{said}\nshift 2\nexec "$@"\n')
    os.chmod(tool, 0o755)
    screen = Screen("calendar", path=work)
    expect("rlwrap, the greeting", screen.read("> "), greeting("calendar").replace("ivl_calendar: rlwrap, once installed, adds history and editing\n", "") + "calendar> ")
    screen.write("quit\n")
    screen.read(None)
    expect("rlwrap, the end", screen.status(), 0)
    with open(said, encoding="utf-8") as file:
        expect("rlwrap, its words", file.read(), "-C ivl_calendar\n")


def a_pipe():
    """In a pipe there is no prompt, and `quit` is a line like any other."""
    for name in PROMPTS:
        done = subprocess.run([os.path.join(FOLDER, f"ivl_{name}")], input=b"quit\n", capture_output=True, check=False)
        expect(f"{name}, a pipe", (done.returncode, done.stderr, done.stdout.count(b"\n")), (0, b"", 1))


def words():
    """Arguments that no program has: one line, and no more."""
    for arguments, why in [
        (["frob"], "there is no argument frob; --help lists the lines"),
        (["--help", "x"], "there is no argument x; --help lists the lines"),
        (["--keep"], "--keep needs the name of a file"),
        (["--compact"], "--compact goes with --keep FILE"),
    ]:
        done = subprocess.run([os.path.join(FOLDER, "ivl_calendar"), *arguments], input=b"", capture_output=True, check=False)
        expect(arguments, (done.returncode, done.stdout, done.stderr.decode()), (2, b"", f"ivl_calendar: {why}\n"))


def main(arguments):
    global FOLDER
    FOLDER = os.path.realpath(arguments[0])
    prompts()
    a_session()
    with tempfile.TemporaryDirectory() as work:
        kept(work)
        wrapped(work)
    a_pipe()
    words()
    print("terminal: prompts, quit, Control-D, Control-C, rlwrap and the arguments are as they should be")


if __name__ == "__main__":
    main(sys.argv[1:])
