#!/usr/bin/env python3
"""Gives each command that has a limit files at its number and one past it: `limits.py [PROGRAM]`, by default the one that `pabble`
runs. At the number the command ends as without a limit, and one past it with the line that names the limit, and its place where it
has one. The last line is 'N passed, N failed'.
"""
import os
import subprocess
import sys
import tempfile
from concurrent.futures import ThreadPoolExecutor
from pathlib import Path

TOP = Path(__file__).resolve().parent.parent
HEAD = "const N = 2..max;\nglobal protocol P(role W[0..N-1]) {\n"
FILE_BYTES, TEXT_BYTES, EVENTS = 1_048_576, 67_108_864, 1_000_000
SYNTAX, USAGE, LIMIT, TEXT, SCHEDULE, TURNS, CALL = 1, 2, 5, 8, 9, 11, 14
PROCESSES, SECONDS, SHOWN = 4, 120, 10
KERNELS = "/*@ prelude */\n/*@ end */\n"
ENDLESS = f"{HEAD}rec X {{ A(uint32[1024]) from W[0] to W[1]; continue X; }}\n}}\n"
MESSAGE = f"{HEAD}A() from W[0] to W[1];\n}}\n"
COMPUTES = f"{HEAD}  compute K at W[0];\n}}\n"
KERNEL = '/*@ kernel k_K */\n  if (N > 2) { puts("}"); }\n/*@ end */\n'
TO_ALL, OR = "from W[0] to W[i:1..N-1];", "\n} or {\n"
FIRST, SECOND = f"choice K at W[0] {{\nA() {TO_ALL}\n", f"}} or {{\nB() {TO_ALL}\n}}\n"


def crowd(low):
    """32 numbers and 32 ends, which meet at each N from 3,971 to 8,066."""
    lines = (f"compute K at W[{4096 + 128 * k}];\ncompute K at W[N+{4 * k}];\n" for k in range(32))
    return f"const N = {low}..max;\nglobal protocol P(role W[0..N+100000]) {{\n{''.join(lines)}}}\n"


def protocols():
    """The limits of a protocol file: what is told past it, the two files, and a number of the range where few ranks are."""
    def pair(line, make, most, n=2):
        return f"pabble: limit {line}", make(most), make(most + 1), n
    yield pair("number at 1:14", lambda k: f"const N = 2..{k};global protocol P(role W[0..N-1]){{}}", 2_000_000_000)
    yield pair("constant at 1:11", lambda k: f"const N = {k}..max;global protocol P(role W[0..N-1]){{}}", 100_000, None)
    yield pair("constant at 2:31", lambda k: f"{HEAD.replace('N-1', f'N+{k}')}}}", 100_000, None)
    yield pair("constant at 3:12", lambda k: f"{HEAD.replace('N-1', 'N+100000')}A() from W[{k}] to W[0];\n}}", 100_000, None)
    yield pair("payload at 3:9", lambda k: f"{HEAD}A(int32[{k}]) from W[0] to W[1];\n}}", 1024)
    yield pair("name at 1:7", lambda k: f"const {'A' * k}=2..max;global protocol P(role W[0..{'A' * k}-1]){{}}", 64)
    yield pair("name at 3:1", lambda k: f"{HEAD}{'A' * k}() from W[0] to W[1];\n}}", 64)
    yield pair("nesting at 129:18", lambda k: HEAD + FIRST * (k - 1) + SECOND * (k - 1) + "}", 64)
    yield pair("statements at 4003:1", lambda k: HEAD + "barrier;\n" * k + "}", 4000)
    yield pair("roles at 66:1", lambda k: HEAD.replace(")", "".join(f",\nrole V{j}" for j in range(k - 1)) + ")") + "}", 64)
    yield pair("branches at 130:3", lambda k: HEAD + "choice K at W[0] {" + OR.join(f"A{j}() {TO_ALL}" for j in range(k)) + "\n}}", 64)
    yield "pabble: limit breakpoints", crowd(3_971), crowd(3_970), None
    yield pair("file bytes", lambda k: MESSAGE.ljust(k), FILE_BYTES)


class Room:
    """A folder with the files of the cases, and the words and answers of each case."""

    def __init__(self, program, folder):
        self.program, self.folder, self.cases, self.count = program, folder, [], 0

    def file(self, text):
        self.count += 1
        path = self.folder / f"{self.count}"
        path.write_text(text)
        return path

    def asks(self, status, last, *words, fronts=()):
        """These words end with this status, and a last line with this front; so many lines have each of the fronts."""
        self.cases.append((status, last, [self.program, *map(str, words)], dict(fronts)))

    def text(self, protocol):
        return subprocess.run([self.program, "gen", self.file(protocol)], capture_output=True, text=True, check=True).stdout

    def failure(self, case):
        status, last, words, fronts = case
        with tempfile.TemporaryFile() as out:
            try:
                code = subprocess.run(words, stdout=out, stderr=subprocess.DEVNULL, timeout=SECONDS).returncode
            except subprocess.TimeoutExpired:
                return f"{words[1:]}: no answer in {SECONDS} seconds"
            out.seek(0 if fronts else max(0, out.tell() - 4096))
            lines = out.read().decode(errors="replace").splitlines()
        counts = {front: sum(line.startswith(front) for line in lines) for front in fronts}
        if code == status and counts == fronts and (last is None or lines[-1:] and lines[-1].startswith(last)):
            return None
        return f"{words[1:]}: {code} {lines[-1:]} {counts}, and not {status} {last} {fronts}"


def of_protocols(room):
    kernels = room.file(KERNELS)
    for line, most, past, n in protocols():
        most, past = room.file(most), room.file(past)
        for command, last in (("check", "accepted"), ("project", "done"), ("gen", "}")):
            room.asks(0, last, command, most)
            room.asks(LIMIT, line, command, past)
        room.asks(LIMIT, line, "gen", past, kernels)
        room.asks(LIMIT, line, "run", past, "--n", "2")
        for command in ("expand", "strips"):
            room.asks(0, None, command, most)
            if "breakpoints" not in line:
                room.asks(LIMIT, line, command, past)
        room.asks(LIMIT, line, "cost", past)
        room.asks(LIMIT, line, "judge", past, past, "--n", "2")
        if n:
            room.asks(0, "ended", "run", most, "--n", n)


def turning(more=""):
    """A choice between two blocks of which the one sends less by turns, and then the other: both send words from rank to rank, the
    first block a word for each rank from 16 on, the second two for each from 24 on, the first two more for each from 40 on, and so
    on. So the least of the two turns at each of these 1,365 numbers, and once between any two."""
    def block(label, which):
        words = (f"B(int32[2]) from W[i:{16 * at + 8}..N-1] to W[0];" if at else "A(int32) from W[i:16..N-1] to W[0];" for at in range(1365))
        return "\n".join([f"{label}() {TO_ALL}", *([more] if which else []), *list(words)[which::2]])
    return f"choice K at W[0] {{\n{block('Go', 0)}{OR}{block('Stop', 1)}\n}}\n"


def of_pieces(room):
    """The second choice turns at the numbers of the first, and elsewhere between them, as its second block sends four words more.
    Behind the two, each message of one word for all ranks from a number on adds a piece. The first choice's least turns down at 32
    by one word a rank, and a message for each rank from 32 on makes it one line there, if it comes before there are too many."""
    choices = turning() + turning("C(int32[4]) from W[1] to W[0];")
    most = [("least words ", 4096)]
    for starts, fronts in (((8,), [*most, ("least messages ", 685)]), ((8, 12), None), ((8, 12, 32), None), ((8, 32, 12), most)):
        file = room.file(HEAD + choices + "".join(f"A(int32) from W[i:{at}..N-1] to W[0];\n" for at in starts) + "}\n")
        if fronts:
            room.asks(0, "most words", "cost", file, fronts=fronts)
        else:
            room.asks(LIMIT, "pabble: limit pieces", "cost", file)


def of_calls(room):
    """Statements count in all bodies together, braces and branches in each, and parameters are no roles. A call that is wrong is told of a
    file within the limits."""
    def asks(status, last, in_sub, in_protocol):
        text = f"const N = 2..max; protocol A(role B) {{\n{in_sub}}}\nglobal protocol P(role M) {{\n{in_protocol}}}"
        room.asks(status, last, "expand", room.file(text))
    in_sub, in_protocol, rec, branch = "do A(B); ", "do A(M); ", "rec X {", "or {} "
    asks(0, "}", "", 4000 * in_protocol)
    asks(CALL, "pabble: call cycle at 2:4", 1999 * in_sub, 2001 * in_protocol)
    asks(LIMIT, "pabble: limit statements at 4:18001", 2000 * in_sub, 2001 * in_protocol)
    asks(LIMIT, "pabble: limit statements at 2:36001", 4001 * in_sub, "")
    asks(0, "}", 63 * rec + 63 * "}", 63 * rec + 63 * "}")
    asks(LIMIT, "pabble: limit nesting at 2:448", 64 * rec + 64 * "}", "")
    asks(LIMIT, "pabble: limit nesting at 4:448", 63 * rec + 63 * "}", 64 * rec + 64 * "}")
    asks(0, "}", "choice K at B {} " + 63 * branch, "choice K at M {} " + 63 * branch)
    asks(LIMIT, "pabble: limit branches at 2:396", "choice K at B {} " + 64 * branch, "choice K at M {} " + branch)
    asks(LIMIT, "pabble: limit branches at 4:396", "choice K at B {} " + 63 * branch, "choice K at M {} " + 64 * branch)
    for params, roles, status, last in ((99, 63, CALL, "pabble: call twice at 1:43"), (0, 64, LIMIT, "pabble: limit roles at 2:531"),
                                        (99, 64, LIMIT, "pabble: limit roles at 2:531")):
        heads = params * "role B, " + "role B", roles * "role W, " + "role M"
        room.asks(status, last, "expand", room.file("const N = 2..max; protocol A({}) {{}}\nglobal protocol P({}) {{}}".format(*heads)))
    # `do` would be statement 4,001, where there may be none; and it is, where there may be one
    for most, status, last in (("do A(B);" * 3999 + "foreach (i:0..1) { do", SYNTAX, "pabble: syntax at 2:32012"),
                               ("do A(B);" * 4000 + "do do", LIMIT, "pabble: limit statements at 2:32001")):
        room.asks(status, last, "expand", room.file(f"const N = 2..max; protocol A(role B) {{\n{most}"))


def of_logs(room):
    """A log's last line may be long."""
    protocol, line = room.file(MESSAGE), "pabble: "
    room.asks(0, "covered", "judge", protocol, room.file(line.ljust(TEXT_BYTES - 1) + "\n"), "--n", 2)
    room.asks(LIMIT, "pabble: limit file bytes", "judge", protocol, room.file(line.ljust(TEXT_BYTES) + "\n"), "--n", 2)
    room.asks(0, "covered", "judge", protocol, room.file(""), "--n", 1024)
    room.asks(LIMIT, "pabble: limit ranks", "judge", protocol, room.file(""), "--n", 1025)


def of_kernels(room):
    for protocol, kernels in ((MESSAGE, KERNELS), (COMPUTES, KERNEL)):
        protocol = room.file(protocol)
        room.asks(0, "}", "gen", protocol, room.file(kernels.ljust(FILE_BYTES)))
        room.asks(LIMIT, "pabble: limit file bytes", "gen", protocol, room.file(kernels.ljust(FILE_BYTES + 1)))


def with_lines(text, lines):
    """A text with these statements behind its own."""
    return text.replace("  MPI_Finalize();\n", f"{lines}  MPI_Finalize();\n")


def nested(depth):
    open_at = "".join(f"{'  ' * k}if (R == 0) {{\n" for k in range(1, depth + 1))
    return open_at + "".join(f"{'  ' * k}}}\n" for k in range(depth, 0, -1))


def of_texts(room):
    text, turn = room.text(MESSAGE), room.file("pabble schedule 1\nseed 0\n0\n")
    own = 4  # statements of the text
    filled = text.replace("/*@ prelude */\n", f"/*@ prelude */\n{'x' * (TEXT_BYTES - len(text) - 1)}\n")
    for line, most, past in (
        ("text nesting", with_lines(text, nested(255)), with_lines(text, nested(256))),
        ("text statements", with_lines(text, "  MPI_Barrier(MPI_COMM_WORLD);\n" * (50_000 - own)),
         with_lines(text, "  MPI_Barrier(MPI_COMM_WORLD);\n" * (50_001 - own))),
        ("file bytes", filled, filled + "\n"),
    ):
        most, past = room.file(most), room.file(past)
        room.asks(0, None, "sim", most, "--n", 2, "--schedule")
        room.asks(LIMIT, f"pabble: limit {line}", "sim", past, "--n", 2)
        room.asks(TURNS, "pabble: turns 1", "replay", most, turn, "--n", 2)
        room.asks(LIMIT, f"pabble: limit {line}", "replay", past, turn, "--n", 2)


def of_ranks(room):
    protocol, text, turn = room.file(MESSAGE), room.file(room.text(MESSAGE)), room.file("pabble schedule 1\nseed 0\n0\n")
    for command, files, status, last in (("run", [protocol], 0, "ended"), ("sim", [text], 0, "ended"),
                                         ("replay", [text, turn], TURNS, "pabble: turns 1")):
        room.asks(status, last, command, *files, "--n", 1024)
        room.asks(LIMIT, "pabble: limit ranks", command, *files, "--n", 1025)
        room.asks(LIMIT, "pabble: limit ranks", command, *files, "--n", 2_000_000_000)
        room.asks(USAGE, "pabble: usage", command, *files, "--n", 2_000_000_001)
    for command, file in (("run", room.file(MESSAGE.replace("A()", "rec X { A()").replace(";\n}", "; continue X; }\n}"))), ("sim", text)):
        room.asks(TURNS if command == "run" else 0, None, command, file, "--n", 2, "--turns", EVENTS)
        room.asks(USAGE, "pabble: usage", command, file, "--n", 2, "--turns", EVENTS + 1)
        room.asks(USAGE, "pabble: usage", command, file, "--n", 2, "--seed", 2**64)
        room.asks(0 if command == "sim" else TURNS, None, command, file, "--n", 2, "--seed", 2**64 - 1)


def of_schedules(room):
    text = room.file(room.text(ENDLESS.replace("(uint32[1024])", "()")))
    for count, status, last in ((EVENTS, TURNS, f"pabble: turns {EVENTS}"), (EVENTS + 1, LIMIT, "pabble: limit events")):
        room.asks(status, last, "replay", text, room.file("pabble schedule 1\nseed 0\n" + "0\n" * count), "--n", 2)
    for count, status, last in ((TEXT_BYTES, SCHEDULE, "pabble: schedule line 1"), (TEXT_BYTES + 1, LIMIT, "pabble: limit file bytes")):
        room.asks(status, last, "replay", text, room.file(" " * count), "--n", 2)


def of_words(room):
    """Rank 0 sends 1,024 words at a time, each time in four turns, and rank 1 is soon at its end."""
    text = room.text(ENDLESS).replace("if (R == 0 && I >= 0 && I <= 1) {", "if (R == 0 && I == 0) {")
    text = room.file(text)
    begun = subprocess.run([room.program, "sim", text, "--n", "2", "--schedule", "--turns", "1000"], capture_output=True, text=True)
    fits = 2 + 4 * 16_384 + 1 + sum(line.startswith("1 ") for line in begun.stdout.splitlines())
    room.asks(TURNS, None, "sim", text, "--n", 2, "--schedule", "--turns", fits)
    room.asks(LIMIT, "pabble: limit words in flight", "sim", text, "--n", 2, "--schedule", "--turns", fits + 1)


def main(program):
    with tempfile.TemporaryDirectory() as folder, ThreadPoolExecutor(PROCESSES) as pool:
        room = Room(program, Path(folder))
        for add in (of_protocols, of_pieces, of_calls, of_logs, of_kernels, of_texts, of_ranks, of_schedules, of_words):
            add(room)
        found = list(filter(None, pool.map(room.failure, room.cases)))
    print(*found[:SHOWN], f"{len(room.cases) - len(found)} passed, {len(found)} failed", sep="\n")
    return 1 if found else 0


if __name__ == "__main__":
    built = [TOP / "scripts/program.sh"]
    named = sys.argv[1] if len(sys.argv) > 1 else os.environ.get("PABBLE") or subprocess.check_output(built, text=True).strip()
    sys.exit(main(os.path.abspath(named)))
