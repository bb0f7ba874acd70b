"""Compares the pages with the sources. `python3 tests/pages COMMAND`:

  rules              the rules, each by its name
  check [RULE]..     whether these rules hold, or all but `examples`, which needs the built program and a minute
  write              writes what pages have from the sources: the definitions of the headline, its record, the evidence in numbers
  reach [CLAUSE]..   the definitions that clauses rest on, in an order in which they can be read: of `program.headline`, of
                     `Office::line` as a whole, or of all in PROVED
"""
import sys
from pathlib import Path
from typing import Callable, Dict

sys.dont_write_bytecode = True
sys.path.insert(0, str(Path(__file__).resolve().parents[1]))

from pages.cited import promised
from pages.rules import RULES
from pages.sources import Tree
from pages.written import write


def rules(tree):
    print(*(f"{it.name}: {it.asks}" for it in RULES), sep="\n")


def check(tree, *names):
    asked = [it for it in RULES if it.name in names or not names and it.name != "examples"]
    if len(asked) < len(names):
        sys.exit(f"The rules are: {', '.join(it.name for it in RULES)}.")
    faults = [it for rule in asked for it in rule.faults(tree)]
    print(*faults, f"{len(faults)} wrong", sep="\n")
    return min(len(faults), 1)


def reach(tree, *names):
    asked = [it for it in tree.clauses if it.function in names or f"{it.function}.{it.name}" in names]
    if names and not asked:
        sys.exit("No function or clause has this name.")
    reached = tree.closure(asked if names else promised(tree)[0])
    for it in (tree.definitions[key] for crate in tree.crates for key in tree.in_order(crate) if key in reached):
        print(f"crates/{it.crate}/specs/{it.module}.antt:{it.line} {it.name}{it.comment and f': {it.comment}'}")
    print(f"{len(reached)} of {len(tree.definitions)} definitions")


COMMANDS: Dict[str, Callable] = {"rules": rules, "check": check, "write": write, "reach": reach}

if __name__ == "__main__":
    command, *words = sys.argv[1:] or [""]
    top = Path(__file__).resolve().parents[2]
    sys.exit(COMMANDS[command](Tree(top), *words) if command in COMMANDS else __doc__)
