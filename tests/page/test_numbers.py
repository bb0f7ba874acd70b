"""How each number is computed, as the page shows it; and the numbers and the parliament of the election of 2006."""
import re
from fractions import Fraction

from case import Case, said
from sheets import ZURICH


class Numbers(Case):
    def test_each_panel(self):
        self.plays("panels")

    def test_a_mark_and_its_panel_have_one_source(self):
        """Of the files of said.case: if a cell is marked as wrong, its panel says so, not in green and with reasons; otherwise not."""
        marked = []
        for given in dict.fromkeys(tuple(files.get(name) for name in rest.split()) for word, rest, files in said() if word == "open"):
            for *marks, wrong, red in self.page.show(*given).run("""
                return [...document.querySelectorAll('#seats button')].map((button) => {
                  button.click();
                  const count = (css) => document.querySelectorAll(`#detail ${css}`).length;
                  const wrong = count('h2 .said.wrong') === 1;
                  return [button.classList.contains('bad'), button.querySelector('.mark.wrong') !== null,
                    button.getAttribute('aria-label').endsWith(', wrong'), count('.reason') > 0,
                    getComputedStyle(document.querySelector('#detail h2 .mark')).color !== 'rgb(27, 110, 60)',
                    wrong, count('dl .mark.wrong') > 0];
                });
            """):
                self.assertEqual(marks, [wrong] * 5)
                self.assertTrue(wrong or not red)
                marked.append(wrong)
        self.assertGreater(sum(marked), 100)
        self.assertGreater(len(marked), 1000)

    def test_the_election_of_2006(self):
        """The table and the parliament have the seats of the sheet, and each panel the exact interval."""
        page = self.page.show(*ZURICH)
        self.holds()
        self.assertEqual(page.text("#kind"), "The sheet calls itself “final”")
        self.assertIn("compared with all 72 returns", page.text("#parts"))
        x, y, rows, totals = (re.findall(pattern, ZURICH.sheet, re.M) for pattern in (
            r"^constituency .* divisor (\S+)", r"^group .* divisor (\S+)", r"^constituency .* seats (\d+)", r"^group .* seats (\d+)"))
        lists = re.findall(r"^list (\d) (\d) .* seats (\d+)$", ZURICH.sheet, re.M)
        _, *body, foot = [row.split()[-9:] for row in page.texts("#seats tr")]
        self.assertEqual(foot, [*totals, "125"])
        self.assertEqual([row[-1] for row in body], rows)
        self.assertEqual([body[int(d) - 1][int(g) - 1] for d, g, _ in lists], [seats for *_, seats in lists])
        for d, g, seats in ((int(d), int(g), int(seats)) for d, g, seats in lists[::4]):
            text = page.cell(d, g).text("#detail").replace(",", "")
            low, high = re.search(r"more than ([\d.]+) and", text), re.search(r"less than ([\d.]+) votes", text)
            self.assertEqual(Fraction(high[1]), Fraction(x[d - 1]) * Fraction(y[g - 1]) * (2 * seats + 1) / 2)
            self.assertEqual(Fraction(low[1]) if low else 0, Fraction(x[d - 1]) * Fraction(y[g - 1]) * max(0, 2 * seats - 1) / 2)
        blocks = page.run("""
            return [...document.querySelectorAll('.arc g')].map((block) => [block.querySelectorAll('.seat').length,
              [...block.querySelectorAll('text')].map((it) => it.textContent), getComputedStyle(block.querySelector('.seat')).fill]);
        """)
        self.assertEqual([it[:2] for it in blocks], [[int(count), [str(number)] * int(count)] for number, count in enumerate(totals, 1)])
        self.assertEqual((len({it[2] for it in blocks}), page.text(".legend li")), (8, "1 SP 44"))
