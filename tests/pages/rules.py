"""The table of the rules, each with a violation that it must see, which is planted in a copy of the tree."""
from collections import namedtuple
from itertools import chain

from pages import cited, examples, language, owed, shape, written

START, END = r"\A", r"\Z"
# Files that a violation adds, and pages that it changes.
SPEC, SOURCE = "crates/zh_disk/specs/Planted.antt", "crates/zh_disk/src/planted.rt"
SPECS, SOURCES = "crates/*/specs/**/*.antt", "crates/*/src/**/*.rt"
FAQ, GERMAN, PROVED = "docs/FAQ.md", "docs/de/NIGHT.md", "docs/PROVED.md"

# A rule: its name, what it asks for, and the function that finds its faults. The changes of its violation: the path of some files, a
# pattern, and what replaces the first text in them that the pattern finds; and what the rule says of it.
Rule = namedtuple("Rule", "name asks faults changes seen")

RULES = [
    # The crates.
    Rule("reached", "a clause, law or ghost field of a source reaches each definition",
         lambda tree: [f"no clause reaches {key}" for key in tree.unreached()],
         [(SPEC, END, "abbrev pub planted : ℕ\nplanted = 1\n")], [r"no clause reaches zh_disk\.specs\.Planted\.planted"]),
    Rule("names", "no two crates define one name", shape.names,
         [(SPEC, END, "pub record Office : Type 0 where\n")], ["Office is defined in zh_disk and zh_office"]),
    Rule("parameters", "a definition has at most six parameters", shape.parameters,
         [(SPEC, END, "abbrev pub planted : {A : Type 0} → ((ℕ → ℕ) → ℕ) → (a b c : ℕ) → (d : ℕ) × (d ≡ d) → A → A → A\n")],
         ["Planted.antt: planted has 7 parameters"]),
    Rule("characters", "a line of a definition or of the code has at most 140 characters", shape.characters,
         [(SPEC, END, f"-- {'≡' * 138}\n")], [r"Planted\.antt:1 has 141 characters"]),
    Rule("unread", "no crate has destructors or macros of its own, or unsafe code", shape.unread,
         [(SOURCE, END, "impl<D: File + Drop>\n    Drop for HeldFile<D> {\n}\nuse std::prelude::Drop as Let;\n"
           "impl<D: File> Drop /* a file */ for HeldFile<D> {\n}\nimpl<const N: usize = { 1 }> Drop for Held<N> {\n}\n"
           "const A: &str = \"//\"; impl Drop for Held {\n}\nmacro_rules! let_go {\n    ($t:ty) => {}\n}\n// unsafe\n"
           "#[unsafe(no_mangle)]\nfn a() {\n    unsafe { b() }\n}\n")],
         [*(rf"planted\.rt:{line} has `Drop`" for line in (2, 4, 5, 7, 9)), r"planted\.rt:11 has `macro_rules`",
          r"planted\.rt:17 has `unsafe`"]),
    # What the pages cite.
    Rule("carried", "each function and clause of PROVED's column 'Carried by' is there", lambda tree: cited.promised(tree)[1],
         [(PROVED, END, "\n## `zh_disk`\n\n| What | Carried by |\n|---|---|\n| a | `planted` |\n| b | as above |\n"
           "| c | `Disk::read_at` planted |\n")],
         ["planted is not there", "'as above' names no function", "Disk::read_at has no clause planted"]),
    Rule("things", "each file, edit, case, crate and function in backticks is there", cited.things,
         [(FAQ, END, "\n`planted.edit`, `zh_planted`, `crates/planted`, `src/planted.rt`, `Planted::gone`\n"),
          (cited.ARCHITECTURE, END, "\n`planted_name`\n")],
         [f"{it} does not exist"
          for it in ("planted.edit", "zh_planted", "crates/planted", "src/planted.rt", "Planted::gone", "planted_name")]),
    Rule("places", "the file of a link defines the function, type or definition that the link names", cited.places,
         [(FAQ, END, "\n[`open_gate`](../crates/zh_disk/src/disk.rt), [`Disk::planted`](../crates/zh_disk/src/disk.rt)\n")],
         ["crates/zh_disk/src/disk.rt does not define open_gate", "does not define Disk::planted"]),
    Rule("links", "each link leads to a file, and to a heading of it",
         lambda tree: cited.lost_links(tree.top, ("*.md", "docs/**/*.md", "examples/**/*.md", "*/*.md")),
         [(FAQ, END, "\n[a](PLANTED.md) [b](#planted) [c](NIGHT.md#planted) [d](/etc/passwd) [e](https://example.org)\n")],
         [f": {it} leads nowhere" for it in ("PLANTED.md", "#planted", "NIGHT.md#planted", "/etc/passwd")]),
    Rule("layers", "crates.txt lists the lowest crates first; ARCHITECTURE has its layers, and of a crate what its root file begins with; "
         "layers.svg shows the layers", lambda tree: chain(cited.layers(tree), cited.drawing(tree)),
         [("crates.txt", END, "zh_planted:\n"), ("crates.txt", "^zh_text: ", "zh_text: zh_planted "),
          ("crates/zh_disk/src/lib.rt", "^//! ", "//! Planted: ")],
         ["those of crates.txt '.* zh_planted'", "lists zh_text before zh_planted", "the root file of `zh_disk` does not begin with",
          "layers.svg does not show: tests .* zh_planted ", "layers.svg does not show: bytes .* zh_text tests"]),
    Rule("trusted", "README names the libraries of the kit that are trusted, which are those that crates use", cited.trusted,
         [("crates.txt", END, "zh_planted: zh_disk libc\n"), ("README.md", "`hex` in", "`planted` in")],
         ["does not say that libc is trusted", "does not say that hex is trusted", "trusts planted, which no crate uses"]),
    Rule("written", "DEFINITIONS lists what the headline reaches, PROVED quotes it and counts the evidence", written.differences,
         [("docs/DEFINITIONS.md", r"^- \[`zh_", "- [`planted"), (PROVED, "(?<=### What `Headline` says\n\n)", "- planted\n"),
          (SPEC, END, "abbrev pub planted : ℕ\n")],
         [r"DEFINITIONS.md:\d+: .* writes '- \[`zh_", r"PROVED.md:\d+: .* writes '```text", r"writes '\| definitions \| "]),
    # What the pages owe.
    Rule("said", "FORMATS and MANUAL say each reply, refusal, fault, task, table, argument and key", owed.said,
         [(SPECS, 'codes "stale"', 'codes "planted"')], ["FORMATS.md does not say `planted`", "MANUAL.md has no row of `planted`"]),
    Rule("limits", "FORMATS and MANUAL say each limit", owed.limits,
         [(SOURCES, r"const MOST_ROWS: \w+ = [\d_]+;", "const MOST_ROWS: usize = 1_003;")],
         ["MANUAL.md does not say 1,003, MOST_ROWS of zh_returns"]),
    Rule("columns", "a line has at most 80 characters", language.long_lines,
         [(FAQ, END, f"\n{'long ' * 16}!\n")], ["81 characters"]),
    Rule("translations", "a German page has the headings, blocks, rows, items, words in backticks, links and numbers of the English, no ß",
         language.translations,
         [(GERMAN, END, "\n- Spaß: 77777 `planted` [dort](BRIEF.md)\n\n| a | b |\n\n```text\nplanted\n```\n"),
          ("docs/de/BRIEF.md", END, "\n## Anderes\n")],
         ["its headings are not those of docs/BRIEF.md", "ß in this section",
          *(f"{it} not in" for it in ("block", "row of a table", "item", "word in backticks", "link", "number"))]),
    # The examples of the pages.
    Rule("examples", "each block does what it shows", examples.examples,
         [*((page, START, "    $ exit 7\n\n") for page in chain(*examples.GROUPS) if page != FAQ),
          (FAQ, START, "    $ seq 2\n    1\n    $ (exit 3)\n\n```text\nplanted\n```\n\n")],
         [r"FAQ\.md:1: seq 2\s+the page: 1\s+printed:  1\s+printed:  2", r"FAQ\.md:1: .exit 3.\s+its status is 3",
          r"FAQ\.md:6: planted: it can't be run", r"NIGHT\.md:1: exit 7\s+it ended the shell"]),
]
