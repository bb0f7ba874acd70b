"""What the office answers, by docs/MANUAL.md: a second opinion, written from its words alone. It computes no seats."""
from canton import CONSTITUENCIES


class Office:
    def __init__(self, canton):
        self.canton = canton
        self.held = {}  # (municipality, list): (number, votes, or None of one that is withdrawn)
        self.closed = set()
        self.batches = {}  # desk: rows
        self.commands = 0

    def answer(self, line):
        desk, word, *numbers = line.split()
        if word in ("row", "commit", "drop") and desk not in self.batches:
            return f"{desk} refused nobatch"
        return f"{desk} " + getattr(self, "on_" + word)(desk, *map(int, numbers))

    def store(self):
        self.commands += 1
        return f"stored {self.commands}"

    def judge(self, municipality, group, number, votes):
        """'' where the entry is accepted, or else the answer."""
        if municipality in self.closed:
            return "refused closed"
        held = self.held.get((municipality, group), (0, None))
        if number == held[0]:
            return "same" if votes == held[1] else "refused conflict"
        if number < held[0]:
            return "refused stale"
        return "" if number == held[0] + 1 else "refused gap"

    def put(self, municipality, group, number, votes=None):
        answer = self.judge(municipality, group, number, votes)
        if answer:
            return answer
        self.held[municipality, group] = number, votes
        return self.store()

    def on_return(self, _desk, *entry):
        return self.put(*entry)

    on_withdraw = on_return

    def on_show(self, _desk, *at):
        number, votes = self.held.get(at, (0, None))
        return f"shows {number} {'withdrawn' if votes is None else votes}" if number else "none"

    def on_close(self, _desk, municipality):
        if municipality in self.closed:
            return "same"
        self.closed.add(municipality)
        return self.store()

    def on_reopen(self, _desk, municipality):
        if municipality not in self.closed:
            return f"refused notclosed {municipality}"
        self.closed.remove(municipality)
        return self.store()

    def on_open(self, desk):
        if desk in self.batches:
            return "refused batchopen"
        self.batches[desk] = []
        return "held 0"

    def on_row(self, desk, municipality, group, number, votes):
        rows = self.batches[desk]
        if any(row[:2] == (municipality, group) for row in rows):
            return "refused twice"
        rows.append((municipality, group, number, votes))
        return f"held {len(rows)}"

    def on_drop(self, desk):
        return f"dropped {len(self.batches.pop(desk))}"

    def on_commit(self, desk):
        answers = {row: self.judge(*row) for row in self.batches[desk]}
        refusals = [it for it in answers.values() if it.startswith("refused")]
        if refusals:
            return refusals[0]
        self.held.update({row[:2]: row[2:] for row in self.batches.pop(desk) if not answers[row]})
        return self.store() if "" in answers.values() else "same"

    def on_sheet(self, _desk):
        """The first line of a sheet, or that a constituency has no votes yet."""
        having = {self.canton.constituency_of[m - 1] for (m, _), (_, votes) in self.held.items() if votes}
        without = sorted({*self.canton.constituency_of} - having)
        return f"refused novotes {without[0]}" if without else f"sheet provisional {self.commands}"

    def on_final(self, desk):
        first = next((it for it in self.canton.municipalities() if it not in self.closed), None)
        return f"refused notclosed {first}" if first else self.on_sheet(desk).replace("provisional", "final")

    def export(self):
        """What `export` writes."""
        rows = [f"{m},{g},{n},{'withdrawn' if votes is None else votes}" for (m, g), (n, votes) in sorted(self.held.items())]
        return "".join(f"{it}\n" for it in ["municipality,list,number,votes", *rows])

    def status(self):
        """What `status --constituencies` writes, with its last line."""
        rows, canton = ["number,held,due,state,votes,name"], self.canton
        for d, name in enumerate(CONSTITUENCIES, 1):
            within = [m for m in canton.municipalities() if canton.constituency_of[m - 1] == d]
            held = [votes or 0 for (m, _), (_, votes) in self.held.items() if m in within]
            state = "closed" if self.closed.issuperset(within) else "open"
            rows.append(f"{d},{len(held)},{sum(len(canton.lists_in(m)) for m in within)},{state},{sum(held)},{name}")
        due = sum(len(canton.lists_in(m)) for m in canton.municipalities())
        final = "would be" if len(self.held) == due else "would not be"
        rows.append(f"{len(self.held)} of {due} returns, {len(self.closed)} of {len(canton.names)} municipalities closed, "
                    f"{self.commands} commands; final {final} of all returns")
        return "\n".join(rows) + "\n"
