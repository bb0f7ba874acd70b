"""What a check says of each function: here alone the prover's words are read. These are `fn NAME: proved`, and else `fn NAME: not proved`,
`no proof` or `could not tell`, with `search did not prove` the goals that are open; `note: FILE:LINE:COLUMN: it is not proved that ..` for
an open goal; and `FILE:LINE:COLUMN: error` for what the proof files get wrong. A kit that words these otherwise is noticed: then nothing
counts as refused at a goal of its own."""
import re

PLACE = r"(?:\./)?(?P<file>(?:src|specs|proofs)/\S+?):(?P<line>\d+):\d+: "
VERDICT = re.compile(r"^fn (\S+): (proved|not proved|no proof|could not tell)(.*)", re.M)
OPEN = re.compile(rf"^note: {PLACE}it is not proved that .*", re.M)
ERROR = re.compile(rf"^{PLACE}error: (?P<said>.*)", re.M)
# (a name that the proof cites and that is gone, or what cites such a proof)
GONE_NAME = re.compile(r"has no field|is not in scope|has no `|is no name|was not admitted|not admitted")
# The kind of a goal is the first word of its name.
KIND = re.compile(r"[^`_-]+")
GONE_GOAL = re.compile(rf"`goal\.({KIND.pattern})")
IS_FALSE = "allow values at which this goal is false"


class Report:
    """A check's words, read: by the name of a function its verdict and what follows it; file, line, goals and words of each open goal;
    file and words of each error."""

    def __init__(self, text, status):
        self.text, self.status = text, status
        self.verdicts = {it[1]: (it[2], it[3]) for it in VERDICT.finditer(text)}
        self.open_goals = [(it["file"], int(it["line"]), re.findall(r"\(`([^`]+)`\)", it[0]), it[0]) for it in OPEN.finditer(text)]
        self.errors = [(it["file"], it["said"]) for it in ERROR.finditer(text)]

    @property
    def has_verdicts(self):
        """Whether the prover was asked: a text that does not compile, or that can't be read, has none."""
        cannot_be_read = any(file.startswith(("src/", "specs/")) for file, _ in self.errors)
        is_whole = self.status in (0, 3) or re.search(r"\n(logic=not-proved|only=\d+ proved=)", self.text)
        return bool(self.verdicts and is_whole and not cannot_be_read)

    @property
    def first_error(self):
        lines = [it for it in self.text.split("\n") if re.search(r"\berror\b", it) or it.startswith("rattle:")]
        return (lines or self.text.strip().split("\n")[-1:])[0][:200]

    def named(self, crate, function):
        """The names under which the check tells of a function of the crate, and of the closures in it."""
        found = [it for it in self.verdicts if it == "::".join(filter(None, (crate, function.module, function.name)))]
        if function.of:
            method = [(it, it.split("::")[-2]) for it in self.verdicts if it.count("::") > 1 and it.endswith(f"::{function.name}")]
            wanted = function.of + function.trait
            # (which trait of some name it is, as `From`, the text does not always say)
            found = [it for it, of in method if of == wanted] or [it for it, of in method if of.startswith(wanted)] or [
                it for it, of in method if of.startswith(function.of)]
        return found + [it for it in self.verdicts if f"::fn::{function.name}::" in it]

    def errors_of(self, names):
        """What the proof files of these functions get wrong."""
        folders = tuple(f"proofs/{'/'.join(it.split('::')[1:])}/" for it in names)
        return [said for file, said in self.errors if file.startswith(folders)]

    def breaks_at_a_goal(self, names, functions):
        """Whether a goal of one of these functions, which have these names here, is refused, and what was said."""
        own = self.errors_of(names)
        gone = {it for said in own if GONE_NAME.search(said) for it in GONE_GOAL.findall(said)}
        answers = [said for said in own if not GONE_NAME.search(said)]
        opened = [(goals, said) for file, line, goals, said in self.open_goals for it in functions
                  if it.file == file and it.start <= line <= it.end]
        for name in names:
            goals = re.findall(r"`([^`]+)`", self.verdicts[name][1].partition("did not prove ")[2].partition(";")[0])
            opened += [(goals, f"{name}: open: {', '.join(goals)}")] if goals else []
        counting = [said for goals, said in opened
                    if IS_FALSE in said or not gone or any(KIND.match(it)[0] not in gone for it in goals)]
        return next(iter(counting + answers), None)
