#!/usr/bin/env python3
"""Tries the program `plain` on small files: the words that it takes, each way in which it refuses, and the words of its kernels.

usage: checks/plain.py [PROGRAM]

PROGRAM is crates/plain/out/plain, or what PLAIN names, where it isn't given. What a whole report says is tried by `rt ci`, by the
files beside the crate. The last line is 'N passed, N failed'.
"""
import os
import subprocess
import sys
import tempfile

TOP = os.path.dirname(os.path.dirname(os.path.realpath(__file__)))
EMPTY = "global protocol P(role W[0..N-1]) {}"
# the words behind the program's name, what the file p has, the status, and the line
REFUSED = [
    (["p"], "", 2, "usage"),
    (["p", "+3"], "", 2, "usage"),
    (["q", "3"], "", 3, "read fault"),
    (["p", "1"], f"const N = 2..9; {EMPTY}", 12, "N = 1 outside 2..9"),
    (["p", "3"], "const N = ;", 1, "syntax at 1:11"),
    (["p", "3"], "const N = 100001..max;", 5, "limit constant at 1:11"),
    (["p", "4"], f"const N = 4..3; {EMPTY}", 1, "rule 5 at 1:14"),
    (["p", "10001"], f"const N = 2..max; {EMPTY}", 5, "limit ranks"),
    (["p", "2"], "const N = 2..max; global protocol P(role W[0..N-1]) { foreach (i:0..9999) { compute K at W[0]; } }", 5, "limit statements"),
]
# three words of rank 0, and two of the last rank: -457095288 is 3837872008 as an int32
WORDS = "const N = 2..9;\nglobal protocol P(role W[0..N-1]) {\n  A(int32[3]) from W[0] to W[1];\n  B(int32[2]) from W[N-1] to W[0];\n}\n"
# the words behind the program's name, what the file p has, and lines that stand in what is shown, in this order at its end
SHOWN = [
    (["p", "3", "1"], WORDS, ["broken 0", "actions 1", "0 send 1 A -457095288 932996374 1548399547", "goes on"]),
    (["p", "3"], WORDS, ["broken 0", "actions 4", "0 send 1 A -457095288 932996374 1548399547", "1 recv 0 A -457095288 932996374 1548399547",
                         "2 send 0 B 2057372262 -31838610", "0 recv 2 B 2057372262 -31838610", "ended"]),
]


def main(words):
    plain = os.path.abspath(words[0] if words else os.environ.get("PLAIN") or f"{TOP}/crates/plain/out/plain")
    passed = failed = 0
    with tempfile.TemporaryDirectory() as room:
        for words, text, status, ends in [(*row[:3], f"plain: {row[3]}\n") for row in REFUSED] + [(row[0], row[1], 0, "\n".join(["", *row[2], ""])) for row in SHOWN]:
            with open(f"{room}/p", "w") as it:
                it.write(text)
            done = subprocess.run([plain, *words], cwd=room, capture_output=True, text=True, stdin=subprocess.DEVNULL, timeout=60)
            is_so = done.returncode == status and (done.stdout.endswith(ends) if status == 0 else done.stdout == ends) and not done.stderr
            passed, failed = passed + is_so, failed + (not is_so)
            if not is_so:
                print("plain", *words, "on", repr(text), "ended with", done.returncode, "and wrote", repr(done.stdout), repr(done.stderr), flush=True)
    print(f"{passed} passed, {failed} failed")
    return 1 if failed or not passed else 0


if __name__ == "__main__":
    sys.exit(main(sys.argv[1:]))
