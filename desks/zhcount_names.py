"""What zhcount-office says to a desk beside its answers: by name, what a line has done; and what speaks against a closing or a `final`."""
import csv
import io
import re
import subprocess
import threading
from typing import Dict, List, Optional, Tuple

from zhcount_program import Program
from zhcount_state import State
from zhcount_tables import totals_in

MOST = 9  # municipalities that are named before the final seats
PATIENCE = 2  # seconds that it may take to read the totals
CLOSINGS = {"close": "closed", "reopen": "open again"}


def listed(program: Program, table: str) -> List[List[str]]:
    said = subprocess.check_output([program.name, "list", *program.files[:2], "--of", table])
    return list(csv.reader(io.StringIO(said.decode(), newline="")))[1:]


def by_others(desk: int, entered: List[str]) -> str:
    """Who else has entered the rows that a desk has entered, of which the desks are given."""
    alone, others = entered.count(str(desk)), sorted(set("".join(entered)) - {str(desk)})
    who = " and ".join("hand" if it == "-" else f"desk {it}" for it in others)
    return f"entered by {who} too{f', but for {alone} of them' if alone else ''}" if others else "entered by this desk alone"


class Names:
    """The names of a set-up by their numbers, and the returns that are due; and the file of the totals, if there is one."""

    def __init__(self, program: Program, totals: str = ""):
        self.municipalities = {number: name for number, name, *_ in listed(program, "municipalities")}
        self.groups, self.totals = {number: name for number, name, *_ in listed(program, "groups")}, totals
        self.due: Dict[str, List[Tuple[str, str]]] = {it: [] for it in self.municipalities}
        for municipality, group, *_ in listed(program, "returns"):
            self.due[municipality].append((municipality, group))

    def done(self, state: State, desk: int) -> str:
        """What the last line of a desk has done; nothing where it has no answer, or has done nothing."""
        if desk not in state.answers:
            return ""
        (word, *numbers), answer, rows = state.lines[desk].text.split(" "), state.answers[desk].text, list(state.put[desk].items())
        if word == "row" and answer.startswith("held "):
            return self.named(*numbers)
        if word in CLOSINGS and re.match("stored |same", answer):
            return f"{self.municipalities[numbers[0]]}: {CLOSINGS[word]}"
        if not rows:
            return ""
        (place, (number, votes)), several = rows[0], f"a batch of {len(rows)} return{'' if len(rows) == 1 else 's'}"
        text = several if word == "commit" else self.named(*place, str(number), votes)
        return f"{text}, {by_others(desk, [state.entered_by(it) for it in rows])}" if answer == "same" else text

    def named(self, municipality: str, group: str, number: str, votes: str) -> str:
        counted = votes if votes == "withdrawn" else f"{votes} vote{'' if votes == '1' else 's'}"
        return f"{self.municipalities[municipality]}, {self.groups[group]}: {counted}, version {number}"

    def warning(self, state: State, line: str) -> str:
        """What speaks against a line that closes a municipality, or asks for the final seats: first errors, then what is not confirmed."""
        asked = re.fullmatch(r"final|close (\d+)", line)
        if not asked:
            return ""
        totals, remarks = self.stated()
        these = [it for it in self.due if it == asked[1] or not asked[1]]
        found = sorted(filter(None, (self.against(state, it, totals) for it in these)), key=lambda it: it[0])
        more = f"{len(found) - MOST} more municipalit{'y' if len(found) == MOST + 1 else 'ies'}: `now` has them all"
        return "\n".join([*remarks, *(text for _, text in found[:MOST]), *[more] * (len(found) > MOST)])

    def against(self, state: State, municipality: str, totals: Dict[str, int]) -> Optional[Tuple[bool, str]]:
        """What speaks against the returns of a municipality, if anything does, and whether that is only that they are not confirmed."""
        due = self.due[municipality]
        held = [(it, state.held[it]) for it in due if it in state.held]
        votes, entered = sum(int(it) for _, (_, it) in held if it != "withdrawn"), [state.entered_by(it) for it in held]
        stated, by_hand = totals.get(municipality, votes), entered.count("-")
        alone = sum(len(it) == 1 for it in entered) - by_hand
        texts = {f"{len(due) - len(held)} of {len(due)} returns missing": len(held) < len(due),
                 f"{votes} votes in all, and its own record states {stated}": votes != stated,
                 f"{alone} entered by one desk alone": alone, f"{by_hand} entered by no desk": by_hand}
        said = [text for text, is_said in texts.items() if is_said]
        is_whole = len(held) == len(due) and votes == stated
        return (is_whole, f"municipality {municipality}, {self.municipalities[municipality]}: {', '.join(said)}") if said else None

    def stated(self) -> Tuple[Dict[str, int], List[str]]:
        """The totals by now, and in a line what is wrong with them. A file that hangs, as one on a network may, is not waited for long."""
        if not self.totals:
            return {}, []
        path, found = self.totals, []
        reader = threading.Thread(target=lambda: found.append(totals_in(path, self.due)), daemon=True)
        reader.start()
        reader.join(PATIENCE)
        totals, remarks = found[0] if found else ({}, [f"{path} can't be read within {PATIENCE} seconds"])
        more = f"; {len(remarks) - 1} more in `now/differs`" if len(remarks) > 1 else ""
        return totals, [f"the totals of their own records: {it}{more}" for it in remarks[:1]]
