"""Calls of the program's mode `check` with a small stack, for the scripts that try it on many or on large texts."""

import os
import re
import resource
import signal
import subprocess
import sys
import tempfile
import time

ROOT = os.path.dirname(os.path.dirname(os.path.dirname(os.path.realpath(__file__))))
LAUNCHER = os.path.join(ROOT, "vdown")
PROGRAM = os.path.join(ROOT, "crates", "vdown", "out", "vdown")
STACK = 8 << 20
RULES = {*range(101, 108), *range(111, 114), 201, 202, *range(301, 311), *range(401, 416)}


def built_program(script):
    """The proved program's path. The launcher proves and builds it where it has to; then it checks no file."""
    with tempfile.TemporaryDirectory() as folder:
        how = {"cwd": folder, "env": {**os.environ, "VDOWN": "proved,quiet"}, "stdin": subprocess.DEVNULL, "stdout": subprocess.PIPE, "stderr": subprocess.PIPE}
        done = subprocess.run([LAUNCHER, "--do", "check"], check=False, **how)
    if done.returncode != 0 or done.stdout != b"accepted 0 units\n":
        sys.exit("%s: the program can't be built or run: status %d\n%s" % (script, done.returncode, done.stderr.decode("latin-1")))
    return PROGRAM


def limit_stack(script):
    """From here on each process that is started has a stack of 8 MiB, and can't ask for more. The launcher asks for more, so it isn't called."""
    hard = resource.getrlimit(resource.RLIMIT_STACK)[1]
    if hard != resource.RLIM_INFINITY and hard < STACK:
        sys.exit("%s: the system gives no stack of 8 MiB here" % script)
    resource.setrlimit(resource.RLIMIT_STACK, (STACK, STACK))


class Call:
    """What came of a call: a status, below 0 where a signal ended it and None where the time ran out; what it said; and its seconds."""

    def __init__(self, program, folder, names, limit):
        began = time.monotonic()
        words = [program, "--do", "check", *names]
        with tempfile.TemporaryFile() as out, tempfile.TemporaryFile() as err:
            try:
                done = subprocess.run(words, cwd=folder, stdin=subprocess.DEVNULL, stdout=out, stderr=err, timeout=limit, check=False)
                self.status = done.returncode
            except subprocess.TimeoutExpired:
                self.status = None
            self.said, self.errors = [read_all(file) for file in (out, err)]
        self.seconds = time.monotonic() - began
        self.limit = limit

    def ending(self):
        """How it ended, in words."""
        if self.status is None:
            return "no end within %d seconds" % self.limit
        if self.status < 0:
            return "ended by the signal %s" % signal.Signals(-self.status).name
        return "status %d" % self.status

    def story(self):
        """How it ended and what it said, cut where that is long."""
        errors = ", and on standard error %s" % shown(self.errors) if self.errors else ""
        return "%s, %s%s" % (self.ending(), shown(self.said), errors)


def read_all(file):
    file.seek(0)
    return file.read()


def shown(said):
    """Some bytes as text, the middle left out where they are many."""
    return repr(said.decode("latin-1")) if len(said) <= 200 else "%d bytes that end with %r" % (len(said), said[-100:].decode("latin-1"))


def lines_of(text):
    """The lines of a file's bytes. A line feed ends a line, and so does a carriage return with a line feed behind it."""
    lines = text.split(b"\n")
    last = lines.pop()
    ended = [line[:-1] if line.endswith(b"\r") else line for line in lines]
    return ended + [last] if last else ended


def misplaced(text, line, column, rule):
    """What is wrong with the place of a refusal, or None. Line and column count from 1."""
    lines = lines_of(text)
    # The end of a file without lines, and of one of which no line is read.
    if rule == 201 and (line, column) == (1, 1):
        return None
    if not 1 <= line <= len(lines):
        return "the text has no line %d" % line
    if 1 <= column <= len(lines[line - 1]):
        # A group without end is refused at the first column of the last line, whatever stands there.
        if lines[line - 1][column - 1] in b" \t\v\f\r" and (rule, column) != (112, 1):
            return "there is spacing at %d:%d" % (line, column)
        return None
    if rule == 112 and (line, column) == (len(lines), 1):
        return None
    # The end of the file stands behind the last line that is read. Behind it only lines can stand that directives leave out.
    unread = any(other.lstrip(b" \t").startswith(b"`") for other in lines)
    if rule == 201 and column == len(lines[line - 1]) + 1 and (line == len(lines) or unread):
        return None
    return "there is no column %d in line %d" % (column, line)


def wrong_form(call, name, text):
    """What is wrong with the answer for one file, whatever the file holds, or None."""
    if call.status not in (0, 1, 6):
        return "no status of 0, 1 and 6"
    lines = call.said.split(b"\n")
    if lines.pop() != b"":
        return "the last line has no end"
    if call.status == 0:
        return wrong_acceptance(lines, name, text)
    if len(lines) != 1:
        return "%d lines" % len(lines)
    if call.status == 6:
        # Of the other limits none can be passed by one text of less than 64 KiB.
        limits = [b"limit nesting 200"] if len(text) < 65536 else [b"limit nesting 200", b"limit tokens 2000000", b"limit units 4096", b"limit input 8388608"]
        return None if lines[0] in limits else "no limit that the text can pass"
    match = re.fullmatch(re.escape(name.encode()) + rb":([1-9]\d*):([1-9]\d*): refused (\d+)", lines[0])
    if match is None or int(match[3]) not in RULES:
        return "no line of a refusal"
    return misplaced(text, *[int(part) for part in match.groups()])


def wrong_acceptance(lines, name, text):
    """What is wrong with the lines of an acceptance: warnings in the order of their lines, and then how many units there are."""
    if not lines or re.fullmatch(rb"accepted (0|[1-9]\d*) units", lines[-1]) is None:
        return "no line of an acceptance at the end"
    last = 0
    for line in lines[:-1]:
        match = re.fullmatch(re.escape(name.encode()) + rb":([1-9]\d*):1: warning: .*", line, flags=re.S)
        if match is None or not last < int(match[1]) <= len(lines_of(text)):
            return "a line in front that is no warning of a line behind the ones before"
        last = int(match[1])
    return None
