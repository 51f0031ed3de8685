#!/usr/bin/env python3
"""Loads a project of a library of 10 KiB and 99 scripts of 5 KiB by the built program's `check`: processor seconds and peak memory.

usage: bench/loading.py [RUNS]    the best of so many runs, 5 if left out; ./smlserver or `rt run` in crates/smlserver builds the program

Exits with 1 where a run takes 2 processor seconds or more, or 1 GiB of memory or more, or ends with another status than 0.
"""

import os
import sys
import tempfile

from reading import program, timed

LIBRARY, SCRIPT, SCRIPTS = 10 << 10, 5 << 10, 99
SECONDS, KIBIBYTES = 2.0, 1 << 20

FUNCTIONS = """fun row%d (k, v) = "<li>" ^ k ^ ": " ^ Int.toString (v * 12 + ~7 div 2) ^ "</li>" (* one row (of many) *)
fun total%d nil = 0 | total%d ((k, v) :: more) = v + total%d more handle Overflow => 0
"""
PAGE = """val rows%d = map (fn n => (Int.toString n, n * %d)) [1, 2, 3, 4, 5, 6, 7, 8, 9, 10]
val _ = if total0 rows%d >= 1000 andalso not (null rows%d) then Web.write "much\\n" else app (fn r => Web.write (row1 r)) rows%d
"""


def filled(piece, size):
    """The piece with each number from 0 up, as often as it fits, and blanks behind."""
    text, n = "", 0
    while len(text) + len(piece % ((n,) * piece.count("%d"))) <= size:
        text += piece % ((n,) * piece.count("%d"))
        n += 1
    return text.ljust(size)


def main():
    binary = os.path.abspath(program())
    with tempfile.TemporaryDirectory() as folder:
        files = {"common.sml": filled(FUNCTIONS, LIBRARY)}
        files.update(("page%d.sml" % n, filled(PAGE, SCRIPT)) for n in range(SCRIPTS))
        scripts = "".join("script /page%d page%d.sml\n" % (n, n) for n in range(SCRIPTS))
        files["site"] = "smlserver 1\nlib common.sml\n" + scripts
        for name, text in files.items():
            with open(os.path.join(folder, name), "w") as file:
                file.write(text)
        runs = [timed([binary, "check", "site"], folder) for _ in range(int(sys.argv[1]) if len(sys.argv) > 1 else 5)]
    seconds, peak = min(it[0] for it in runs), max(it[1] for it in runs)
    print("%.2f processor seconds, %d MiB, status %d, %s" % (seconds, peak >> 10, runs[0][2], runs[0][3].decode().strip()))
    return 1 if seconds >= SECONDS or peak >= KIBIBYTES or any(it[2] for it in runs) else 0


if __name__ == "__main__":
    sys.exit(main())
