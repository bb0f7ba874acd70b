"""The page's own check: sheets that are wrong, each at its line, or do not match the set-up or the returns; and what changed since
another sheet."""
import model
from case import EXAMPLE, Case, changed
from sheets import ZURICH

# Changes after which a line does not belong into a sheet, or not in its place.
FORMS = ((1, "1 sheet", "0 sheet"), (1, "1 sheet", "9 sheet"), (1, "1 sheet", " sheet"), (1, "provisional", "preliminary"),
         (2, "house 10", "house 010"), (2, "house 10", "house  10"), (5, "205.000000", "205.00000"), (8, "yes voters", "maybe voters"),
         (11, "525", "0525"), (11, "525", "-525"), (20, "end", "End"), (20, "end", "end "))
# How a sheet that can't be read is changed: the colour, the line and the reason.
DATA, LINES = EXAMPLE.encode(), EXAMPLE.splitlines(keepends=True)
TEXTS = (*(("damaged", count + 1, "the sheet is cut off here", "".join(LINES[:count])) for count in range(len(LINES))),
         *(("wrong", line, "it is not UTF-8", DATA[:at] + bad + DATA[at:]) for at, line in ((0, 1), (len(DATA) // 2, 9), (len(DATA), 21))
           for bad in (b"\xff", b"\xc3", b"\xed\xa0\x80")),
         ("damaged", 12, "cut off within this line", EXAMPLE[:EXAMPLE.index("list 1 2") + 12]),
         ("damaged", 20, "its line end is missing", EXAMPLE[:-1]),
         ("damaged", 1, "it ends in a carriage return (CR LF)", EXAMPLE.replace("\n", "\r\n")),
         ("damaged", 7, "it ends in a carriage return (CR LF)", changed(EXAMPLE, "West\n", "West\r\n")),
         ("damaged", 1, "byte order mark", "\ufeff" + EXAMPLE),
         *(("damaged", 21, "an empty line follows the line “end”", EXAMPLE + more) for more in ("\n", "\n\n", " \r\n")),
         *(("wrong", 21, "something follows the line “end”", EXAMPLE + more) for more in (EXAMPLE, "x", "\nx\n")),
         *(("wrong", line, "it does not belong here", EXAMPLE.replace(old, new, 1)) for line, old, new in FORMS),
         ("wrong", 12, "it is there twice, or out of order", changed(EXAMPLE, "list 1 2", "list 1 1")),
         ("wrong", 6, "its number should be 2", changed(EXAMPLE, "constituency 2", "constituency 3")),
         *(("wrong" if text.endswith("\n") else "damaged", 1, "", text) for text in ("", "\n", "hello", "\0\0\0", "<b>bold</b>\n")))


class Wrong(Case):
    def test_numbers(self):
        self.plays("numbers and names")
        self.page.show(changed(EXAMPLE, "Nord", "No\trd"))
        self.fails("wrong", "form", 5, "control characters")
        self.page.show(changed(ZURICH.sheet, "2377 seats 4", "2377 seats 5"))
        self.fails("wrong", "lists", 22, "28,518 / (7,242.666666 × 1.007187) = 3.909.. rounds to 4")

    def test_another_set_up_and_other_returns(self):
        self.plays("another set-up and other returns")

    def test_of_equal_worth_the_first_has_the_key_and_a_half_voter_is_rounded_up(self):
        for line, election in (("seats key 4000/3", model.Election(3, [1000, 3000], [[100], [200]])),
                               ("seats key 8000/3", model.Election(3, [3000, 5000], [[100], [200]])),
                               ("list 1 1 votes 5 voters 3 ", model.Election(4, [1000, 1000], [[5, 8], [5, 4]]))):
            self.assertIn(f"\n{line}", election.sheet())
            self.page.show(*election.files())
            self.holds()

    def test_the_quorum_to_the_vote(self):
        for votes, part, quorum in ((50, True, None), (49, False, None), (49, True, 49), (48, False, 49)):
            election = model.Election(10, [1000], [[613, 387 - votes, votes]], quorum=quorum)
            self.assertEqual(election.takes_part(2), part)
            self.page.show(election.sheet(), election.setup())
            self.holds()
            page = self.page.show(election.sheet(part=[True, True, not part]), election.setup())
            self.fails("wrong", "participation", 9 if quorum else 8, f"by its votes this group takes {'part' if part else 'no part'}")
            self.assertEqual(len(page.texts("#parts tr.bad")), 1)

    def test_what_is_no_line_or_follows_the_end(self):
        for state, line, reason, text in TEXTS:
            self.page.show(text)
            self.fails(state, "-", line, reason)

    def test_two_sheets(self):
        before = changed(ZURICH.sheet, "1 sheet final 81", "1 sheet provisional 80")
        page = self.page.choose(("now.txt", ZURICH.sheet), ("before.txt", before))
        self.assertEqual(page.text("#kind"), "The sheet calls itself “final”")
        self.assertEqual(page.texts("#changes tbody tr"), ["Kind provisional final", "Entries 80 81 +1"])
        one, two = model.made_up(7, 5, 4, 50), model.made_up(7, 5, 4, 50)
        two.votes[0][0] += 30000
        page.open().choose(("a", one.sheet(commands=7))).choose(("b", two.sheet(commands=8)))
        for row in ("District 1, Group 1: votes 83,465 113,465 +30,000", "Group 1: seats 16 17 +1"):
            self.assertIn(row, page.texts("#changes tbody tr"))
        page.click("#files > p button")
        self.assertIn("(7, it says)", page.text("#why"))
