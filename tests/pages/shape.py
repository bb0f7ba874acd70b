"""The shape of the crates: one name is one thing, a definition has few parameters, a line can be read without scrolling, and code that no
clause sees is refused."""
import re
from itertools import takewhile

from pages.sources import HEAD

MOST_PARAMETERS, MOST_CHARACTERS = 6, 140
# Each opening and each append can end in ways of its own, so more crates than one have these types.
SHARED = {"OpenFault", "AppendFault"}
TYPE = re.compile(r"^\s*pub (?:struct|enum|trait|type) (\w+)", re.M)
NESTED = re.compile(r"([({\[][^][(){}]*)[({\[][^][(){}]*[])}]")
# Code that no clause sees; and where these words can be all the same: in texts and comments, and for names of variants.
UNREAD = re.compile(r"\bmacro_rules\b|\bunsafe\b(?!\(no_mangle\)\])|(?:::|[^\s:+])\s*\bDrop\b")
NO_CODE = re.compile(r"""(?s)"(?:\\.|[^"\\])*"|b?'(?:\\.|[^'\\\n])'|//[^\n]*|/\*.*?\*/|#\[derive\([^)]*\)\]""")
VARIANT = re.compile(r"\benum \w+\s*\{[^{}]*\}|\bBatchStep::Drop\b|\bsteps\.Drop\b")


def names(tree):
    """Definitions and public types of one name in two crates."""
    crates, types = {}, ((name, crate) for crate, _, text in tree.files("src/**/*.rt") for name in TYPE.findall(text))
    for name, crate in [*((it.name, it.crate) for it in tree.definitions.values()), *types]:
        crates.setdefault(name, {})[crate] = None
    yield from (f"{name} is defined in {' and '.join(it)}" for name, it in crates.items() if len(it) > 1 and name not in SHARED)


def number_of_parameters(definition):
    """How many explicit parameters its signature has: what comes after the name, up to equations, fields or constructors."""
    first, *rest = map(str.rstrip, definition.text)
    more = takewhile(lambda it: it.startswith(" "), [] if first.endswith(" where") else rest)
    text = " ".join([first[HEAD.match(first).end():], *more]).partition(" where")[0]
    while (flat := NESTED.sub(r"\1_", text)) != text:
        text = flat
    text = re.sub(r"\{[^}]*\}", "", text)
    text = re.sub(r"\(([^():]*):[^()]*\)", lambda it: "@" * len(it[1].split()), text)
    head, _, rest = re.sub(r"[(\[][^])]*[])]", "T", text).partition(":")
    return head.count("@") + sum(it.count("@") if set(it) <= {"@", " "} else 1 for it in rest.split("→")[:-1])


def parameters(tree):
    for it in tree.definitions.values():
        if (number := number_of_parameters(it)) > MOST_PARAMETERS:
            yield f"crates/{it.crate}/specs/{it.module}.antt: {it.name} has {number} parameters; {MOST_PARAMETERS} are allowed"


def characters(tree):
    for _, path, text in [*tree.files("specs/**/*.antt"), *tree.files("src/**/*.rt")]:
        for number, line in enumerate(text.splitlines(), 1):
            if len(line) > MOST_CHARACTERS:
                yield f"{path}:{number} has {len(line)} characters; {MOST_CHARACTERS} are allowed"


def unread(tree):
    """Destructors of our own, which run where no clause looks: so `Drop` is allowed as a bound or in a derive alone. And code that other
    rules can't read, since a macro writes it, or that may do what no clause allows: leak what must be handed over."""
    for _, path, text in tree.files("src/**/*.rt"):
        for aside in (NO_CODE, VARIANT):
            text = aside.sub(lambda it: re.sub(r"[^\n]", " ", it[0]), text)
        for it in UNREAD.finditer(text):
            line, word = text.count("\n", 0, it.end()) + 1, re.search(r"\w+$", it[0])[0]
            yield f"{path}:{line} has `{word}`: no crate has destructors or macros of its own, or unsafe code"
