"""The bar: its colour, heading and sentences, by all that the checks can find."""
import itertools

import model
from case import EXAMPLE, SETUP, Case, changed

FAULT = {"line": 7, "reason": "nobody", "values": {}}
KINDS = [{"colour": colour, "heading": {"key": "isSeats"}, "sentence": [{"fault": FAULT}]} for colour in ("wrong", "mismatch")]
OWN = ({"verdict": "right"}, *({"verdict": "wrong", "fault": FAULT, "count": 2, "kind": kind} for kind in KINDS))
PROVED = ("right", "wrong", "runs", "none", "alone", "absent", "refused", "failed")
SET_UP_IS = ({"is": "none"}, {"is": "read"}, {"is": "unread", "line": 3})
GIVEN = ({"is": "none"}, {"is": "compared"}, {"is": "given"}, {"is": "unread", "line": 4})
REFUSALS = (("tied seats", "The seats of the constituencies are tied"), ("noseat 3", "Constituency 3 (West) would have no seat"),
            ("nogroup", "No group takes part"), ("novoters", "has 0 voters"), ("tied upper", "groups in the canton are tied"),
            ("novotes 2", "no votes in constituency 2 (Mitte)"), ("tied lower 2 31", "group 31 in constituency 2 (Mitte) lies on a half"),
            ("exhausted", "search for divisors ended without any"), ("notclosed 512", "Municipality 512 is still open"),
            ("memory", "too little memory"), ("reopen-disk", "has to be opened again"))


class Bar(Case):
    def test_green_only_where_all_was_given_and_both_say_right(self):
        """Every combination."""
        found = [{"own": own, "proved": {"state": proved, "why": "time"}, "setup": setup, "rows": rows,
                  "returns": {"rows": held, "possible": 9, "missing": [{"name": "Nord", "lists": ["A"]}]}}
                 for own, proved, setup, rows, held in itertools.product(OWN, PROVED, SET_UP_IS, GIVEN, (0, 8, 9))]
        for one, bar in zip(found, self.page.run("return arguments[0].map(barOf)", found)):
            own, proved = one["own"]["verdict"], one["proved"]["state"]
            is_read, is_whole = one["setup"]["is"] == "read", one["rows"]["is"] == "compared" and one["returns"]["rows"] == 9
            differ = {own, proved} == {"right", "wrong"}
            if differ:
                colour = "wrong"
            elif "wrong" in (own, proved):
                colour = one["own"]["kind"]["colour"]
            else:
                colour = "right" if is_read and is_whole and proved == "right" else "unsure"
            self.assertEqual(bar["colour"], colour, one)
            self.assertGreater(len(bar["sentence"]), 0, one)
            of_setup, of_rows, of_checks = (tick["state"] for tick in bar["ticks"])
            self.assertEqual((of_setup == "right", of_rows == "right"), (is_read, is_whole), one)
            self.assertEqual(of_checks, colour if "wrong" in (own, proved) else "right" if proved == "right" else "unsure", one)
            self.assertEqual(bar["heading"]["key"] == "barDiffer",
                             differ and (own == "wrong" or is_read and one["rows"]["is"] in ("compared", "none")), one)

    def test_returns_that_are_missing(self):
        sheet, setup, rows = model.Election(10, [5000, 3000, 2000], [[525, 300, 175], [240, 330, 30], [90, 60, 0]]).files()
        self.page.show(sheet, setup, rows).proved("right")
        self.bar_is("right", "✓ Right")
        few = changed(rows, "3,3,1,0\n", "")
        page = self.page.sheet(sheet, setup, few)
        self.bar_is("unsure", "! 1 of 9 returns is missing; right so far")
        self.assertEqual(page.texts("#why p")[:2], ["The missing returns can still change the seats.", "Missing: District 3: Group 3."])
        for css, text in (("#proved p", "It says that the sheet is right. "), ("#ticks", "! Returns opened: 8 of 9 "),
                          ("#proved pre", "sheet ok for 8 of 9 rows: 1 returns are missing"), ("#ticks", "✓ Both checks say: right"),
                          ("#parliament h2", "The parliament so far: 8 of 9 returns")):
            self.assertIn(text, page.text(css))
        self.assertEqual(page.run("return document.querySelector('#checks details ul').textContent"), "District 3: Group 3")
        few = changed(few, "3,2,1,60\n", "")
        page.show(model.Election(10, [5000, 3000, 2000], [[525, 300, 175], [240, 330, 30], [90, 0, 0]]).sheet(), setup, few)
        self.assertEqual(page.text("#verdict"), "! 2 of 9 returns are missing; right so far")

    def test_missing_lists_are_named_by_municipality(self):
        setup = model.made_up(1, 5, 6, 60).setup()
        rows = "".join(f"{m},{g},1,7\n" for m in (1, 2, 5) for g in range(1, 7) if (m, g) not in ((1, 4), (5, 6)) and (m != 2 or g == 3))
        said = self.page.run("""
            const { rows, possible, missing } = readHeld(arguments[1], readSetup(arguments[0]));
            return [rows, possible, make('p', {}, reasonOf(words('barMissingAre', { missingRows: { rows: missing } }))).textContent];
        """, setup, "municipality,list,number,votes\n" + rows)
        self.assertEqual(said, [11, 30, "Missing: District 1: Group 4; District 2: 5 lists; District 3: all lists; 2 more."])

    def test_final_is_what_a_sheet_calls_itself(self):
        self.plays("final is what a sheet calls itself")

    def test_a_refusal_is_the_answer_of_the_office(self):
        for begin, (name, why) in itertools.product(("1 refused", "zhcount: refused", "8 refused"), REFUSALS):
            page = self.page.show(f"{begin} {name}\n", SETUP).proved("wrong")
            self.assertEqual(page.bar(), ("refused", "answer"), name)
            (kind,), (verdict,), sentences, (proved,), *none = page.seen(
                "#kind", "#verdict", "#why p", "#proved p", "#ticks li", ".fault, #signatures p")
            self.assertEqual((kind, verdict), ("NO SEATS", "i The office gives no seats, and says why"))
            self.assertIn(why, sentences[0])
            self.assertTrue(proved.startswith("It checks sheets alone, and to it this answer is none."))
            self.assertIn("“sheet wrong” in its last line below says only that", proved)
            self.assertEqual(none, [[], []])
        self.assertIn("Constituency 3 would have no seat.", self.page.show("1 refused noseat 3").text("#why"))
        for text in ("1 refused stale\n", "1 refused nogroup\n" + EXAMPLE):
            self.page.show(text)
            self.fails("wrong", "-", 1, "it does not belong here")

    def test_all_faults_are_listed(self):
        sheet = EXAMPLE
        for line in ("525 voters 105 seats 3", "330 voters 110 seats 2", "50 voters 25 seats 0"):
            sheet = changed(sheet, f"votes {line}", f"votes {line[:-1]}9")
        lines, reasons, count = self.page.show(sheet, SETUP).seen(".fault pre", ".fault .reason", "#count")
        self.assertEqual([int(line.split(":")[0]) for line in lines], [11, 15, 19, 5, 6, 7, 8, 9, 10])
        self.assertEqual((len(reasons), count), (9, ["9 checks fail."]))
        # All that is wrong with a line is in one place.
        self.page.show(changed(EXAMPLE, "votes 525 voters 105 seats 3", "votes 525 voters 104 seats 4"), SETUP)
        self.assertEqual(self.page.texts(".fault:first-of-type .reason"), [
            "525 / 5, rounded, is 105 voters, and not 104", "525 / (205.000000 × 1.000000) = 2.560.. rounds to 3, and not to 4 seats"])
