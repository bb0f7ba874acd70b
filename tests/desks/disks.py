"""Disks to be read, by docs/FORMATS.md: images that the cases keep, damages that they name, and records at random."""
import io
import json
import re
import struct

from cases import coded, turns
from counting import Count, random_line
from places import CASES

DISK_BYTES = 1118720
PLACES = {"head": 0, "setup": 4096}
for _slot, _place in ((1, 69632), (2, 594176)):
    PLACES.update({f"slot{_slot}": _place, f"slot{_slot}.gate": _place, f"slot{_slot}.generation": _place + 1,
                   f"slot{_slot}.payload": _place + 9, f"journal{_slot}": _place + 262400})
FORMAT_BYTE = PLACES["slot1.payload"] + 72
# The tables of a set-up: how their numbers of rows are packed, and their fields.
SETUP = [("constituency", "B", "persons", ">I"), ("municipality", ">H", "constituency", "B"), ("group", "B", "stands", ">I")]
# How a record of desk 1 begins in formats 1 and 2.
KINDS = {"return": (b"\1", b"\6\1"), "withdraw": (b"\2", b"\7\1"), "close": (b"\3", b"\3"), "reopen": (b"\4", b"\4"),
         "commit": (b"\5", b"\x08\1")}
DAMAGE = re.compile(r"((?:damage|poke) ([a-z]\S*?|\d+)(?:\+(\d+))? ([0-9a-f* ]+?))(?: *->.*)?$")


def put(disk, place, data):
    """The disk with these bytes from this place on."""
    return disk[:place] + data + disk[place + len(data):]


def kept_images():
    """Each file that a case writes as a disk, with its title."""
    for case in ("kept_images.case", "program_disks.case"):
        *_, (_, files) = turns(CASES / case)
        yield from ((f"{case}: {name}", image) for name, image in files.items() if name.endswith(".disk"))


def named_damages():
    """The bytes that the cases put on a disk, each with its place and its title."""
    found = {}
    for line, _ in [*turns(CASES / "damages.case"), *turns(CASES / "migrations.case")]:
        if match := DAMAGE.match(line):
            title, place, further, data = match.groups()
            found[title] = (PLACES[place] if place in PLACES else int(place)) + int(further or 0), coded(data.split())
    return found


def setup_of(disk):
    """The set-up bytes of a disk as a text for the program; None if they are not of that form."""
    file = io.BytesIO(disk[4096:4096 + int.from_bytes(disk[11:15], "big")])

    def number(form):
        return struct.unpack(form, file.read(struct.calcsize(form)))[0]

    try:
        lines = [f"house = {number('>H')}"]
        for table, rows, field, form in SETUP:
            for _ in range(number(rows)):
                value, name = number(form), file.read(number("B")).decode()
                if field == "stands":
                    value = [it + 1 for it in range(32) if value >> it & 1]
                lines += [f"[[{table}]]", f"{field} = {value}", f"name = {json.dumps(name, ensure_ascii=False)}"]
        quorum = file.read()
        head = ["version = 2", f"canton_quorum = {int.from_bytes(quorum, 'big')}"] if quorum else ["version = 1"]
        return "\n".join(head + lines) + "\n" if len(quorum) in (0, 2) else None
    except (ValueError, struct.error):
        return None


def journal_of(records):
    """Records on their pages."""
    pages = b""
    for record in records:
        others = [record[at:at + 255] for at in range(252, len(record), 255)]
        pages += bytes([0xA5, 1 + len(others)]) + len(record).to_bytes(2, "big") + record[:252].ljust(252, b"\0")
        pages += b"".join(b"\xa7" + it.ljust(255, b"\0") for it in others)
    return pages


def records_of(chance, of_format, length):
    """Random commands of desk 1 as this many records, most of which a count of the rehearsal accepts."""
    count, found = Count(), []
    while len(found) < length:
        line = random_line(chance, count)
        word, *numbers = line.split(" ")
        rows = count.batches.get("1", []) if word == "commit" else [map(int, numbers)]
        if count.answer(f"1 {line}").startswith("stored ") or word in KINDS and chance.randrange(100) == 0:
            head = KINDS[word][of_format - 1] + (len(rows).to_bytes(2, "big") if word == "commit" else b"")
            found.append(head + b"".join(it.to_bytes(size, "big") for row in rows for it, size in zip(row, (2, 1, 4, 4))))
    return found
