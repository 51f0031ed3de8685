#!/usr/bin/env python3
"""Reads scripts of 1 MiB less 1 KiB by the built program: processor seconds, MB a second and peak memory of a whole run of `page`.

usage: bench/reading.py [RUNS]    the best of so many runs, 5 if left out; ./smlserver or `rt run` in crates/smlserver builds the program

Exits with 1 where a run takes 0.8 processor seconds or more (0.3 for the tokens, 0.5 for the tree), or more than 400 bytes of
memory a byte of script, or ends with another status than 3.
"""

import os
import subprocess
import sys
import tempfile

TOP = os.path.join(os.path.dirname(os.path.abspath(__file__)), "..")
SIZE = (1 << 20) - (1 << 10)  # the texts of a project pass 1 MiB nowhere, and its own file counts
SECONDS, BYTES = 0.8, 400

PAGE = """fun row (k, v) = "<li>" ^ k ^ ": " ^ Int.toString (v * 12 + ~7 div 2) ^ "</li>" (* one row (of many) *)
val rows = Web.Db.rows ("guests", `select k, v from book where k = ^(Web.Db.qqq (var "name")) order by ^order`)
fun total nil = 0 | total ((k, v) :: more) = v + total more handle Overflow => 0
val _ = if total rows >= 1000 andalso not (null rows) then Web.write "much\\n" else app (fn r => Web.write (row r)) rows
"""


def whole(piece):
    """The piece again and again, as often as it fits, and blanks behind it."""
    return (piece * (SIZE // len(piece))).ljust(SIZE)


TEXTS = [
    ("pages", whole(PAGE)),
    ("names of one byte", whole("a ")),
    ("marks of one byte", whole(";")),
    ("one text", '"' + "a" * (SIZE - 2) + '"'),
    ("text of quotations", whole("`" + "a" * 1000 + "`")),
    ("500,000 open comments", "(*" * 500000),
    ("500,000 parentheses", "(" * 500000 + ")" * 500000),
    ("349,184 open quotations", "`^(" * (SIZE // 3)),
]


def program():
    for path in ("crates/smlserver/out/ready/smlserver", "crates/smlserver/out/smlserver"):
        path = os.path.join(TOP, path)
        if os.access(path, os.X_OK):
            return path
    sys.exit("the program is not built yet: run ./smlserver --version")


def timed(words, folder):
    """Processor seconds, peak kilobytes, status and output of a command that is run in a folder."""
    child = subprocess.Popen(words, cwd=folder, stdout=subprocess.PIPE, stderr=subprocess.DEVNULL)
    line = child.stdout.read()
    _, status, usage = os.wait4(child.pid, 0)
    child.stdout.close()
    return usage.ru_utime + usage.ru_stime, usage.ru_maxrss, os.waitstatus_to_exitcode(status), line


def main():
    binary = os.path.abspath(program())
    runs = int(sys.argv[1]) if len(sys.argv) > 1 else 5
    missed = False
    with tempfile.TemporaryDirectory() as folder:
        with open(os.path.join(folder, "site"), "w") as file:
            file.write("smlserver 1\nscript /hello hello.sml\n")
        for name, text in TEXTS:
            with open(os.path.join(folder, "hello.sml"), "w") as file:
                file.write(text)
            seconds, peak, status, line = min(timed([binary, "page", "site", "/hello", ""], folder) for _ in range(runs))
            each = peak * 1024 / len(text)
            fits = seconds < SECONDS and each <= BYTES and status == 3
            missed = missed or not fits
            print("%-24s %7.3f s %8.1f MB/s %7.1f MiB %6.0f bytes a byte   %s%s" % (
                name, seconds, len(text) / seconds / 1e6, peak / 1024, each, line.decode().strip(), "" if fits else "   MISSED"))
    sys.exit(1 if missed else 0)


if __name__ == "__main__":
    main()
