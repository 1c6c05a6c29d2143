#!/usr/bin/env python3
"""Tries the program `draw` on small logs: the words that it takes, each way in which it refuses, the events that it leaves out, and
the pictures in checks/drawn, byte for byte: two messages, of which nobody takes the second, and a collective that a rank doesn't leave.

usage: checks/draw.py

The program is the one that DRAW names, or the proved one of these sources, or one that is built without its proofs. The last line is
'N passed, N failed'.
"""
import os
import subprocess
import sys
import tempfile

TOP = os.path.dirname(os.path.dirname(os.path.realpath(__file__)))
DRAWINGS = f"{TOP}/checks/drawn"
USAGE = "draw: usage: draw LOG [--from LINE] [--to LINE] [--ranks A..B]\n"
ONE = "0 run K\n"
# the words behind the program's name, what the file log has, the status, and the line
REFUSED = [
    ([], "", 2, USAGE),
    (["other"], "", 3, "draw: read fault\n"),
    (["log"], "0 run K\n0 run 9\n", 18, "draw: log line 2 is malformed\n"),
    (["log"], "0 recv 1 A\n0 send 1 B\n1 recv 0 B\n1 send 0 A\n", 1, "draw: the log's actions wait for each other in a circle\n"),
    (["--to", "9", "log", "--from", "10"], ONE, 2, USAGE),
    (["log", "--from", "0"], ONE, 2, USAGE),
    (["log", "--from", "+1"], ONE, 2, USAGE),
    (["log", "--from"], ONE, 2, USAGE),
    (["log", "--ranks", "3..2"], ONE, 2, USAGE),
    (["log", "--ranks", "3"], ONE, 2, USAGE),
    (["log", "--to", "1", "--to", "2"], ONE, 2, USAGE),
    (["log", "log"], ONE, 2, USAGE),
    (["log", "-x"], ONE, 2, USAGE),
]
# logs, and the first of their lines that is malformed, if one is
LINES = [
    ("", None),
    ("0 run K", 1),
    ("00 run K\n", 1),
    ("0 run K\n0 run 9\n", 2),
    ("0 run K\n\n", 2),
    ("0 run K 1\n", 1),
    ("0 send 1 A \n", 1),
    ("0 send 1 A -0\n", 1),
    ("0 send 1 A 4294967296\n", 1),
    ("0 send 1 A -2147483648\n", None),
    ("0 send 1 A -2147483649\n", 1),
    ("ended\n0 run K\n", 1),
    ("pabble: stuck, rank 3 is lost\n", None),
    ("pabble: turns 5\n\n", 1),
    ("pabble: turns 5", 1),
]
# a line of each form
FORMS = ["0 choose K 1", "0 run K", "0 send 1 A 5 -7", "1 recv 0 A 5 -7", "0 enter barrier", "4294967295 leave L 12 9"]
MESSAGE = "0 send 1 Border 4294967295 4294967295 4294967295 4294967295 1 2 3\n1 recv 0 Border 4294967295 4294967295 4294967295 4294967295 1 2 3\n"
# the last line may have any bytes
BYTES = b"0 run K\npabble: <a> & \"b\" \xff\x01\n"
BYTES_TOLD = 'the log ends with: pabble: &lt;a&gt; &amp; "b" ??</text>'
MANY = ONE * 2001
LEFT_OUT = "draw: the first 2000 of 2001 events are drawn; --from and --to choose others\n"
# the same of words that are taken, with the line that is told besides the picture
DRAWN = [
    (["log"], ONE, ""),
    (["--to", "9", "log", "--ranks", "0..3", "--from", "1"], ONE, ""),
    (["log"], MANY, LEFT_OUT),
    (["log", "--from", "1"], MANY, ""),
]


def main():
    draw = subprocess.check_output([f"{TOP}/scripts/program.sh"], text=True, env={**os.environ, "PROGRAM_CRATE": "draw"}).strip()
    passed = failed = 0
    with tempfile.TemporaryDirectory() as room:

        def call(words, text, out=subprocess.PIPE):
            with open(f"{room}/log", "wb") as it:
                it.write(text if isinstance(text, bytes) else text.encode())
            return subprocess.run([draw, *words], cwd=room, stdin=subprocess.DEVNULL, stdout=out, stderr=subprocess.PIPE, text=True, timeout=60)

        def expect(is_so, *said):
            nonlocal passed, failed
            passed, failed = passed + is_so, failed + (not is_so)
            if not is_so:
                print("draw", *said, flush=True)

        for words, text, status, line in REFUSED:
            done = call(words, text)
            expect((done.returncode, done.stdout, done.stderr) == (status, "", line), *words, "on", repr(text[:80]), "gave", done)
        sizes = []
        for words, text, line in DRAWN:
            done = call(words, text)
            is_picture = done.stdout.startswith("<svg ") and done.stdout.endswith("</svg>\n")
            expect(is_picture and (done.returncode, done.stderr) == (0, line), *words, "on", repr(text[:80]), "gave", done.returncode, done.stderr)
            sizes.append(len(done.stdout))
        expect(sizes[2] < sizes[3], "left out no event:", sizes)
        for text, line in LINES:
            done = call(["log"], text)
            is_so = done.returncode == 0 if line is None else (done.returncode, done.stderr) == (18, f"draw: log line {line} is malformed\n")
            expect(is_so, "on", repr(text), "gave", done.returncode, done.stderr)
        picture = call(["log"], "\n".join([*FORMS, "ended", ""])).stdout
        for number, line in enumerate(FORMS, 1):
            expect(picture.count(f"<title>{number}: {line}</title>") == 1, "didn't draw", line)
        for name in sorted({it.rpartition(".")[0] for it in os.listdir(DRAWINGS)}):
            log, picture = (open(f"{DRAWINGS}/{name}.{kind}").read() for kind in ("log", "svg"))
            expect(call(["log"], log).stdout == picture, "on", name, "made another picture")
        growth = len(call(["log"], 90 * MESSAGE).stdout) - len(call(["log"], 40 * MESSAGE).stdout)
        expect(0 < growth < 100 * 200, "made", growth, "bytes of a hundred events")
        expect(BYTES_TOLD in call(["log"], BYTES).stdout, "didn't tell the bytes of the last line")
        with open("/dev/full", "w") as full:
            done = call(["log"], ONE, full)
        expect((done.returncode, done.stderr) == (4, "draw: write fault\n"), "on a full device gave", done)
    print(f"{passed} passed, {failed} failed")
    return 1 if failed or not passed else 0


if __name__ == "__main__":
    sys.exit(main())
