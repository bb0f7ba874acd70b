"""Tries the wrong bodies of a crate, many in one check, and says of each what it came to."""
import shutil
import tempfile
import time
from concurrent.futures import ThreadPoolExecutor, as_completed
from contextlib import suppress
from types import SimpleNamespace

from edited.edit import NoLongerApplies
from edited.report import GONE_NAME
from edited.tree import sum_of, words_in

REFUSED = "refused"
ELSEWHERE = "refused only elsewhere"
NAMES = "refused only because a name in a proof is gone"
PROVED = "still proved"
GONE = "no longer applies"
UNKNOWN = "no verdict"
FEW_CHECKS = 2


class Crate:
    """Wrong bodies of a crate and the outcome of each: a kind and the prover's words. The sums of those that were refused are kept beside
    the crate's libraries, so that a run that goes on after another need not try them."""

    def __init__(self, tree, name, edits):
        self.tree, self.name, self.edits, self.outcomes, self.checks = tree, name, edits, {}, 0
        self.path, self.rest = tree.folder(name) / "out/refused", tree.sums([name], [])

    def sum(self, edit):
        return sum_of(self.rest[self.name] + edit.text)

    def keep(self):
        """Keeps which were refused, unless the sources changed."""
        if self.tree.sums([self.name], []) == self.rest:
            kept = {*words_in(self.path), *(self.sum(it) for it in self.edits if self.outcomes.get(it.name, [""])[0] == REFUSED)}
            self.path.parent.mkdir(exist_ok=True)
            self.path.write_text("\n".join(sorted(kept)))


def batches_of(edits):
    """The edits in batches: those of one change different functions, whose names the prover's words tell apart. An edit that changes what
    other functions prove has a batch of its own."""
    batches = []
    for edit in (it for it in edits if not it.stands_alone):
        names = {(it.of or it.file, it.name) for it in edit.functions}
        for batch in (it for it in batches if not it.names & names):
            with suppress(NoLongerApplies):  # where another of the batch changed what it needs
                batch.texts = edit.applied(batch.texts)
                break
        else:
            batch = SimpleNamespace(edits=[], names=set(), texts=edit.applied({}))
            batches.append(batch)
        batch.edits.append(edit)
        batch.names |= names
    return [it.edits for it in batches] + [[it] for it in edits if it.stands_alone]


def judged(report, crate, edit, is_alone):
    """What the report says of the edit: a kind and the prover's words, or None where it is to be tried with fewer others."""
    if not report.has_verdicts:
        return (GONE if report.status == 1 else UNKNOWN, report.first_error) if is_alone else None
    names = [name for it in edit.functions for name in report.named(crate, it)]
    if said := report.breaks_at_a_goal(names, edit.functions):
        return REFUSED, said
    if not is_alone:
        return None
    if report.status == 0:
        return PROVED, "the crate is proved with it"
    if any(report.verdicts[it][0] == "could not tell" for it in names):
        return UNKNOWN, report.first_error
    if any(GONE_NAME.search(it) for it in report.errors_of(names)):
        return NAMES, report.first_error
    refused = " ".join([name for name, (verdict, _) in report.verdicts.items() if verdict != "proved"][:4])
    advice = "" if edit.functions else "it changes no function; add '# refused at: FUNCTION' if one of these is meant: "
    return ELSEWHERE, advice + refused


def try_batch(prover, seed, kept, crate, batch):
    """What each edit of the batch came to, as above."""
    texts = {}
    for edit in batch:
        texts = edit.applied(texts)
    report = prover.check_over(seed, kept, crate, texts, [it for edit in batch for it in edit.functions])
    return [judged(report, crate, edit, len(batch) == 1) for edit in batch]


def try_batches(prover, seed, kept, crate, batches, say):
    """Tries the edits in these batches, side by side over copies of a seed, or without one in turn over the work in the folder `kept`, and
    then those that did not come clear in smaller ones. Keeps which are refused."""
    began = time.monotonic()
    with ThreadPoolExecutor(prover.lanes if seed else 1) as pool:
        while batches:
            running = {pool.submit(try_batch, prover, seed, kept, crate.name, it): it for it in batches}
            crate.checks, batches = crate.checks + len(batches), []
            for done in as_completed(running):
                found = list(zip(running[done], done.result()))
                crate.outcomes.update({edit.name: outcome for edit, outcome in found if outcome})
                crate.keep()
                unclear = [edit for edit, outcome in found if outcome is None]
                # (where nothing came clear, fewer at a time)
                half = (len(unclear) + 1) // 2 if len(unclear) == len(found) else len(unclear)
                batches += [it for it in (unclear[:half], unclear[half:]) if it]
                say(f"{crate.name}: {len(crate.outcomes)} of {len(crate.edits)} tried, after {round(time.monotonic() - began)} s")


def try_crate(prover, name, edits, jobs, anew, say):
    """Tries these wrong bodies of a crate, all anew or those that no run refused, over a first check of it, with at most `jobs` jobs.
    Where they are few checks, and the library shows that the crate is proved, none is made: it takes longer than they do from nothing."""
    began, crate = time.monotonic(), Crate(prover.tree, name, edits)
    for edit in edits:
        try:
            edit.applied({})
            edit.callers()
            if not anew and crate.sum(edit) in words_in(crate.path):
                crate.outcomes[edit.name] = REFUSED, "by an earlier run"
        except NoLongerApplies as why:
            crate.outcomes[edit.name] = GONE, str(why)
    todo, seed, own = [it for it in edits if it.name not in crate.outcomes], None, prover.tree.folder(name) / "out/incremental"
    batches = batches_of(todo)
    with tempfile.TemporaryDirectory(dir=prover.folder) as room:
        if len(batches) > FEW_CHECKS or todo and not prover.tree.is_noted(name):
            seed = shutil.copytree(own, room, dirs_exist_ok=True) if own.is_dir() else room
            report = prover.check(name, {}, seed, jobs)
            crate.checks += 1
            if report.status != 0:
                crate.outcomes.update({it.name: (UNKNOWN, f"the crate itself is not proved: {report.first_error}") for it in todo})
                batches = []
        try_batches(prover, seed, room, crate, batches, say)
    crate.seconds, crate.refused = round(time.monotonic() - began), sum(kind == REFUSED for kind, _ in crate.outcomes.values())
    return crate
