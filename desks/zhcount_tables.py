"""Tables as spreadsheets write them, CSV with commas or semicolons: returns, whose rows make a batch of a desk; and, for --totals, the
totals that the municipalities' own records state, `municipality,votes`, which grow during the night and may have other columns."""
import csv
import io
import os
import re
import stat
from typing import Container, Dict, Iterable, List, Tuple

COLUMNS = ("municipality", "list", "number", "votes")
GERMAN = dict(zip(("Gemeinde", "Liste", "Fassung", "Stimmen"), COLUMNS))
MOST = 1000  # rows of a batch
LONGEST = 1 << 20  # bytes that are read: more than such a table has


class Table:
    """The rows of a table, and what is wrong with it. It may have no other column: nobody could tell whether that is to be entered."""

    def __init__(self, data: bytes):
        self.rows: Dict[str, int] = {}  # as the office is sent them, each with its line of the file
        self.lines: Dict[Tuple[str, str], int] = {}  # the same by municipality and list
        self.faults: List[str] = []
        try:
            text = data.decode("utf-8-sig")
        except UnicodeDecodeError:  # what Excel writes; whatever is not ASCII is only shown in messages
            text = data.decode("cp1252", "replace")
        self.reader = csv.reader(io.StringIO(text, newline=""), delimiter=";" if ";" in text.partition("\n")[0] else ",", strict=True)
        try:
            titles: List[str] = next(self.reader, [])
            self.look_at(titles, [GERMAN.get(it, it) for it in titles])
            for cells in () if self.faults else filter(None, self.reader):
                self.take(titles, cells)
            if not text.endswith(("\n", "\r")):
                self.wrong("the end of this line is missing: if the table is complete, press Enter at its end")
            if len(data) == LONGEST or not self.faults and not 1 <= len(self.rows) <= MOST:
                self.wrong(f"the table has {len(self.rows)} rows up to here; 1 to {MOST} are allowed")
        except csv.Error as it:
            self.wrong(f"this is no CSV: {it}")

    def wrong(self, text: str) -> None:
        self.faults.append(f"line {max(1, self.reader.line_num)}: {text}")

    def look_at(self, titles: List[str], names: List[str]) -> None:
        for it in COLUMNS:
            if it not in names:
                self.wrong(f"the column {it} is missing")
        for title, name in zip(titles, names):
            if name not in COLUMNS or names.count(name) > 1:
                self.wrong(f"the column {title[:40]!r} is unknown, or there twice: delete it")

    def take(self, titles: List[str], cells: List[str]) -> None:
        """Takes a row, or says the first thing that is wrong with it."""
        row = {GERMAN.get(title, title): cell for title, cell in zip(titles, cells)}
        faults = [it for it in map(fault_of, titles, cells) if it]
        if len(cells) != len(COLUMNS):
            return self.wrong(f"the row has {len(cells)} cells instead of {len(COLUMNS)}")
        if faults:
            return self.wrong(faults[0])
        line = self.lines.setdefault((row["municipality"], row["list"]), self.reader.line_num)
        if line != self.reader.line_num:
            return self.wrong(f"municipality {row['municipality']}, list {row['list']} is in line {line} already")
        self.rows[" ".join(["row", *(row[it] for it in COLUMNS)])] = line


def fault_of(title: str, cell: str) -> str:
    """Why a cell is no number; nothing if it is one."""
    if re.fullmatch("0|[1-9][0-9]{0,9}", cell):
        return ""
    if re.fullmatch("[0-9]{1,3}([^0-9A-Za-z][0-9]{3})+", cell):
        return f"{title} is {cell!r}: write {re.sub('[^0-9]', '', cell)}, without a separator"
    return f"{title} is {cell[:40]!r}, which is no whole number" if cell.strip() else f"{title} is blank: fill it in, or delete the row"


def text_of(path: str) -> str:
    """The text of a file. Nothing here waits for another process, as it would at the end of a pipe."""
    with open(path, "rb", opener=lambda at, flags: os.open(at, flags | os.O_NONBLOCK)) as file:
        if not stat.S_ISREG(os.fstat(file.fileno()).st_mode):
            raise OSError("it is not a file")
        data = file.read(LONGEST + 1)
    if len(data) > LONGEST:
        raise OSError(f"it has more than {LONGEST} bytes")
    return data.decode("utf-8-sig", "backslashreplace")


def totals_in(path: str, known: Container[str]) -> Tuple[Dict[str, int], List[str]]:
    """The totals by now of the municipalities `known`; and what is wrong: with the file, or with a row, which is left out."""
    totals: Dict[str, int] = {}
    remarks = []
    try:
        text = text_of(path)
        rows = csv.DictReader(io.StringIO(text, newline=""), restval="", delimiter=";" if ";" in text.split("\n")[0] else ",")
        if not {"municipality", "votes"} <= set(rows.fieldnames or ()):
            raise csv.Error("line 1 has not the columns municipality and votes")
        for row in rows:
            municipality, votes = row["municipality"].strip(), row["votes"].strip()
            if municipality not in known:
                remarks.append(f"line {rows.line_num}: there is no municipality {municipality!r}")
            elif municipality in totals:
                remarks.append(f"line {rows.line_num}: municipality {municipality} is there already")
            elif re.fullmatch("[0-9]{1,18}", votes):
                totals[municipality] = int(votes)
            elif votes:
                remarks.append(f"line {rows.line_num}: {votes!r} is no number of votes")
    except (OSError, csv.Error) as it:
        remarks.append(f"{path} can't be read: {it}")
    return totals, remarks


def table_of(titles: str, rows: Iterable[Iterable[object]]) -> bytes:
    table = io.StringIO()
    csv.writer(table, lineterminator="\n").writerows([titles.split(","), *rows])
    return table.getvalue().encode("utf-8", "backslashreplace")


def differing(path: str, status: str) -> Tuple[bytes, List[str]]:
    """A table of the municipalities whose returns are all in and do not add up to the stated total, and of all remarks; and these alone."""
    rows = list(csv.DictReader(io.StringIO(status, newline="")))
    totals, remarks = totals_in(path, {it["number"] for it in rows})
    found = [[it["number"], it["votes"], totals[it["number"]], it["name"], ""] for it in rows
             if totals.get(it["number"]) not in (None, int(it["votes"])) and it["held"] == it["due"]]
    found += [["", "", "", "", it] for it in remarks]
    return table_of("municipality,held_votes,stated_votes,municipality_name,remark", found), remarks
