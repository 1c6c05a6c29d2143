"""A reference recogniser of protocol files: the tokens, grammar, limits and places of docs/LANGUAGE.md. `answer` says
of any bytes what `pabble gen FILE` must say of them: the status line of the fault that counts, or `ok` for a file of
the grammar within the limits.
"""
import re
from collections import namedtuple

KEYWORDS = ("const global protocol role from to foreach rec continue choice at or compute barrier broadcast reduce "
            "allreduce with max min sum int32 uint32 do").split()
LIMITS = {"number": 2_000_000_000, "name": 64, "nesting": 64, "statements": 4_000, "roles": 64, "branches": 64,
          "constant": 100_000, "payload": 1_024}
LEXEME = re.compile(rb"""(?P<blank> [ \t\r\n]+ | //[^\n]* | /\* .*? \*/ )
                       | (?P<word> [A-Za-z_][A-Za-z0-9_]* )
                       | (?P<number> [0-9]+ )
                       | (?P<symbol> \.\. | [=;()\[\]{},:+-] ) | (?P<other> . )""", re.DOTALL | re.VERBOSE)

# The kind is `name`, `number`, `end`, or the keyword or symbol itself. The value is a number's.
Token = namedtuple("Token", "kind start end value")


class Fault(Exception):
    """What the status line names, and the offset of its place."""


def check_limit(quantity, count, start):
    if count > LIMITS[quantity]:
        raise Fault(f"limit {quantity}", start)


def lex(data):
    """The tokens, with the end behind them; or the first lexical fault."""
    tokens = []
    for found in LEXEME.finditer(data):
        kind, value, start = found[0].decode("latin-1"), None, found.start()
        if found["other"]:
            raise Fault("syntax", start)
        if found["number"]:
            kind, value = "number", int(kind.lstrip("0")[:11] or 0)  # eleven digits are too many, whatever follows
            check_limit("number", value, start)
        elif found["word"] and kind not in KEYWORDS:
            check_limit("name", len(kind), start)
            kind = "name"
        if not found["blank"]:
            tokens.append(Token(kind, start, found.end(), value))
    return tokens + [Token("end", len(data), len(data), None)]


class Recogniser:
    """Takes forms of the grammar, and stops at the first token that can't stand there or passes a limit."""

    def __init__(self, tokens):
        self.tokens, self.position = tokens, 0
        self.open_braces = self.statements = 0

    def take(self, *kinds):
        token = self.tokens[self.position]
        if token.kind not in kinds:
            raise Fault("syntax", token.start)
        self.position += 1
        return token

    def skip(self, *kinds):
        """Takes the next token if it is of such a kind, and says whether it was."""
        found = self.tokens[self.position].kind in kinds
        self.position += found
        return found

    def take_all(self, parts):
        """Each part is a method that takes a form, or a text of the kinds of which one token is taken."""
        for part in parts:
            part(self) if callable(part) else self.take(*part.split())

    def roles(self):
        count = 1
        while count == 1 or self.skip(","):
            check_limit("roles", count, self.take("role").start)
            self.take("name")
            if self.skip("["):
                self.take_all((*self.RANGE, "]"))
            count += 1

    def constant(self):
        number = self.take("number")
        check_limit("constant", number.value, number.start)

    def lin(self):
        """Says whether the lin is a name alone."""
        alone = self.skip("name") and not self.skip("+", "-")
        if not alone:
            self.constant()
        return alone

    def end(self, may_bind=False):
        """Says whether the end binds."""
        self.take("name")
        if not self.skip("["):
            return False
        binds = self.lin() and may_bind and self.skip(":")
        self.take_all((*self.RANGE, "]") if binds else "]")
        return binds

    def ends(self):
        self.take("from")
        binds = self.end(may_bind=True)
        self.take("to")
        self.end(may_bind=not binds)

    def payload(self):
        self.take("(")
        if self.skip("int32", "uint32") and self.skip("["):
            count = self.take("number")
            if count.value == 0:
                raise Fault("syntax", count.start)
            check_limit("payload", count.value, count.start)
            self.take("]")
        self.take(")")

    def braces(self, forms):
        self.open_braces += 1
        check_limit("nesting", self.open_braces, self.take("{").start)
        while (first := self.take("}", *forms)).kind != "}":
            self.statements += 1
            check_limit("statements", self.statements, first.start)
            self.take_all(forms[first.kind])
        self.open_braces -= 1

    def block(self):
        self.braces(self.STATEMENTS)

    def items(self):
        self.braces(self.ITEMS)

    def branches(self):
        self.block()
        count = 2
        while count == 2 or self.tokens[self.position].kind == "or":
            check_limit("branches", count, self.take("or").start)
            self.block()
            count += 1

    OPERATOR = "min max sum"
    RANGE = (lin, "..", lin)
    FILE = ("const", "name", "=", constant, "..", "number max", ";",
            "global", "protocol", "name", "(", roles, ")", block, "end")
    # What stands behind the first token of a statement, and of an item.
    STATEMENTS = {
        "name": (payload, ends, ";"),
        "foreach": ("(", "name", ":", *RANGE, ")", items),
        "rec": ("name", block),
        "continue": ("name", ";"),
        "choice": ("name", "at", end, branches),
        "compute": ("name", "at", end, ";"),
        "barrier": (";",),
        "broadcast": ("name", payload, "from", end, ";"),
        "reduce": ("name", payload, "with", OPERATOR, "to", end, ";"),
        "allreduce": ("name", payload, "with", OPERATOR, ";"),
    }
    ITEMS = {"name": (payload, "from", end, "to", end, ";"), "compute": STATEMENTS["compute"]}


def answer(data):
    try:
        Recogniser(lex(data)).take_all(Recogniser.FILE)
    except Fault as fault:
        what, start = fault.args
        place = data.count(b"\n", 0, start) + 1, start - data.rfind(b"\n", 0, start)
        return "pabble: {} at {}:{}".format(what, *(min(number, 4_294_967_295) for number in place))
    return "ok"
