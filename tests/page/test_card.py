"""The card for a desk: its dialogue and its table have what a desk shows, and its two sides say the same."""
import html
import re
import subprocess

from case import OTHER_WORDS
from places import TOP
from room import Room

SIDES = dict(re.findall(r'<section lang="(\w+)">(.*?)</section>', (TOP / "page" / "card.html").read_text(), re.S))
# How the lines of zhcount-desk begin after which somebody has to do something.
MESSAGES = ("the office has ended: ", "no answer yet", "a batch is open; ", "the batch is dropped, ", "not sent, ",
            "another connection has this desk")
# Refusals that no desk gets: of a line without a desk, of a file, and of more commands than can come.
OTHERS = {"desk", "csv", "spent"}


def seen(side):
    """The text of a side as it is read, with a stroke after each cell of a table."""
    return " ".join(html.unescape(re.sub("<[^>]*>", "", side.replace("</td>", " | "))).split())


def test_its_dialogue_is_what_a_screen_shows(program):
    screen = re.search('<table class="screen">(.*?)</table>', SIDES["de"], re.S)[1]
    lines = [(html.unescape(text), typed != "") for typed, text in re.findall('<code( class="typed")?>(.*?)</code>', screen)]
    assert len(lines) == 6
    with Room() as room:
        room.edit_script("zhcount-desk", r"^PATIENCE = \d+", "PATIENCE = 600")  # a busy machine may be slow
        room.start()
        desk = subprocess.run(room.script("zhcount-desk", "3", room.folder), stdout=subprocess.PIPE, stderr=subprocess.STDOUT, text=True,
                              input="".join(f"{text}\n" for text, is_typed in lines if is_typed))
    assert desk.stdout.splitlines() == [text for text, is_typed in lines if not is_typed]


def test_what_a_desk_shows_has_a_row():
    """The reasons of refusals in MANUAL's table of answers, and what zhcount-desk says itself."""
    source = "".join((TOP / "desks" / it).read_text() for it in ("zhcount-desk", "zhcount_connections.py"))
    table = (TOP / "docs" / "MANUAL.md").read_text().partition("\n## Answers")[2].partition("\n## ")[0]
    answers = re.findall(r"^\| `([a-z-]+)[^`|]*` \|", table, re.M)
    for side in SIDES.values():
        cells = re.findall("<td><code>refused (.*?)</td>", side)
        named = {name.split(" ")[0] for cell in cells for name in re.sub("<[^>]*>", "", cell).split(", ")}
        assert {*answers[answers.index("syntax"):]} - OTHERS <= named
        for message in MESSAGES:
            assert message in source and message in seen(side)


def test_its_two_sides_say_the_same():
    """In German each thing has one word, as on the page (test_use.py) and in NIGHT."""
    german, english = (re.findall("<code[^>]*>(.*?)</code>", SIDES[it]) for it in ("de", "en"))
    assert german == english
    assert "refused .. to commit | nothing is stored, and the batch stays | find the row with show." in seen(SIDES["en"])
    for said in ("refused .. auf commit | nichts ist gespeichert, der Stapel bleibt | die Zeile mit show suchen.", "Pult", "Eintrag",
                 "Pultserver", "unterbrochen", "provisorische Sitze", "Zeile nicht verstanden", "Tausendertrennzeichen"):
        assert said in seen(SIDES["de"])
    assert not re.search(OTHER_WORDS, seen(SIDES["de"]))
