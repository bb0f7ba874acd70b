"""What make install and make dist put where, that make uninstall takes it away, the man pages, and the commands of OPERATING."""
import filecmp
import os
import re
import shutil
import subprocess

import pytest

from pages.cited import lost_links
from places import PROGRAM, TOP

VERSION = (TOP / "VERSION").read_text().strip()
ARCHIVE = TOP / f"out/zhcount-{VERSION}.tar.gz"
FILES = (TOP / "tests/installed/files.txt").read_text().split()


def ran(*words, **options):
    """A command in the top folder that has ended, with all that it said as its stdout."""
    how = {"cwd": TOP, "stdin": subprocess.DEVNULL, "stdout": subprocess.PIPE, "stderr": subprocess.STDOUT, "timeout": 600, **options}
    return subprocess.run([str(it) for it in words], text=True, **how)


def make(*words):
    made = ran("make", "-s", *words)
    assert made.returncode == 0, made.stdout
    return made.stdout


def files_below(folder):
    return sorted(str(it.relative_to(folder)) for it in folder.rglob("*") if it.is_file())


def man(folder, name):
    """A man page's text without its marks, but for its macros."""
    text = (folder / f"share/man/man1/{name}.1").read_text()
    return re.sub(r"\\f[BR]", "", text).replace("\\-", "-")


@pytest.fixture(scope="module")
def unpacked(tmp_path_factory):
    """The folder that is packed in the archive of make dist. A copy of the archive is beside it."""
    make("dist")
    folder = tmp_path_factory.mktemp("archive")
    shutil.unpack_archive(shutil.copy(ARCHIVE, folder), folder)
    return folder / f"zhcount-{VERSION}"


def test_all_is_there_and_then_gone(tmp_path):
    """Below another root, where all names the folder that it will be in."""
    there, words = tmp_path / "opt/there", (f"DESTDIR={tmp_path}", "PREFIX=/opt/there")
    for _ in ("first", "again"):
        said = make("install", *words)
        assert files_below(there) == FILES
        assert ran("sha256sum", there / "share/zhcount/index.html").stdout.split()[0] in said.splitlines()
    assert filecmp.cmp(TOP / "page/index.html", there / "share/zhcount/index.html", shallow=False)
    unit = (there / "share/examples/zhcount/zhcount-office.service").read_text()
    assert unit.count("/opt/there/bin/zhcount") == 2 and "/usr/local" not in unit
    assert ".TP\n/opt/there/share/doc/zhcount\nManuals: MANUAL.md first" in man(there, "zhcount")
    for _ in ("first", "again"):
        make("uninstall", *words)
        assert files_below(tmp_path) == []


@pytest.mark.parametrize("prefix, program", [
    ("there", PROGRAM), ("./there", PROGRAM), ("/there too", PROGRAM), ("", PROGRAM), ("/there", "/none"),
])
def test_what_is_no_place_or_no_program_is_refused(tmp_path, prefix, program):
    refused = ran("make", "-s", "install", f"DESTDIR={tmp_path}/bad", f"PREFIX={prefix}", env={**os.environ, "ZHCOUNT": str(program)})
    assert refused.returncode and ("run 'make build' first" in refused.stdout) == (program == "/none")
    assert not (tmp_path / "bad").exists()


@pytest.mark.parametrize("page, name, text", [
    ("zhcount", "D return M L N V", "a return: list L has V votes"),
    ("zhcount", "stored K", "a command was accepted; it is the K-th"),
    ("zhcount", "gap", "The number is higher than the next one"),
    ("zhcount", "--setup <FILE>", "The set-up, in TOML"),
    ("zhcount", "2", "the arguments ask for no task"),
    ("zhcount", "disk busy", "Another program is using the disk"),
    ("zhcount-desk", "1", "Something was not sent"),
    ("zhcount-office", "zhcount-office --rebuild FOLDER DISK", "makes a lost disk again"),
    ("zhcount-office", "FOLDER/night.db, FOLDER/night.db-wal", "each line and each answer"),
])
def test_a_man_page_says_what_each_thing_means(unpacked, page, name, text):
    assert re.search(rf"^\.TP\n{re.escape(name)}\n.*{re.escape(text)}", man(unpacked, page), re.M)


def test_the_man_page_has_each_task_answer_and_fault_of_the_pages(unpacked):
    text, formats, manual = man(unpacked, "zhcount"), (TOP / "docs/FORMATS.md").read_text(), (TOP / "docs/MANUAL.md").read_text()
    tasks = set(re.findall(r"^\| `([a-z]+)", formats.split("\n| Arguments |")[1].split("\n\n")[0], re.M))
    assert tasks == set(re.findall(r"^\.SS (\S+)$", text, re.M)) == set(re.findall(r"^zhcount ([a-z]+) .*--setup <FILE>", text, re.M))
    rows = [row for head in ("Answer", "Fault") for row in manual.split(f"\n| {head} |")[1].split("\n\n")[0].splitlines()[2:]]
    names = {name for row in rows for name in re.findall("`([^`]*)`", row.split(" | ")[0])}
    entries = {it for entry in re.findall(r"^\.TP\n(.*)", text, re.M) for it in entry.split(", ")}
    assert len(names) > 50 and names - entries == {"sheet ..", "end"}  # a sheet is not a reply


@pytest.mark.parametrize("name", [it[4:] for it in FILES if it.startswith("bin/")])
def test_a_man_page_is_whole(unpacked, name):
    text = man(unpacked, name)
    assert text.startswith(f'.TH {name.upper()} 1 "" "zhcount {VERSION}" "User Commands"\n')
    assert {"NAME", "SYNOPSIS", "DESCRIPTION", "EXIT STATUS", "EXAMPLES", "SEE ALSO"} <= set(re.findall(r"^\.SH (.*)", text, re.M))
    assert re.search(rf"^\.SH SYNOPSIS\n(?:\.\S+.*\n)*{name}\b", text, re.M)
    if shutil.which("man"):
        words = ["man", "--warnings", "-E", "UTF-8", "-l", unpacked / f"share/man/man1/{name}.1"]
        assert ran(*words, stdout=subprocess.DEVNULL, stderr=subprocess.PIPE).stderr == ""


def test_the_archive_has_what_is_installed_with_its_sums(unpacked):
    assert ran("sha256sum", "--quiet", "-c", "SHA256SUMS", cwd=unpacked).stdout == ""
    summed = [line[66:] for line in (unpacked / "SHA256SUMS").read_text().splitlines()]
    assert sorted(["SHA256SUMS", *summed]) == files_below(unpacked)
    assert [*lost_links(unpacked)] == [] and "\n/usr/local/share/doc/zhcount\n" in man(unpacked, "zhcount")
    assert (unpacked / "share/examples/zhcount/zhcount-office.service").read_text().count("/usr/local/bin/zhcount") == 2
    assert ran("sh", "-c", "umask 077; make -s dist").returncode == 0
    assert filecmp.cmp(ARCHIVE, f"{unpacked}.tar.gz", shallow=False)


def test_programs_of_the_archive_need_nothing_else(unpacked, tmp_path):
    tried = ran("sh", "-ec", f"""
        setup={unpacked}/share/examples/zhcount/canton.toml
        zhcount format --setup $setup --disk disk
        zhcount-office --witness "zhcount-witness copy" $setup disk office & office=$!
        echo "return 180 1 1 525" | timeout 300 zhcount-desk 3 office
        kill $office; wait $office
        zhcount-read disk
        ls copy/night.db""", cwd=tmp_path, env={"PATH": f"{unpacked}/bin:/usr/bin:/bin"})
    assert tried.returncode == 0, tried.stdout
    assert {"stored 1", "180,1,1,525"} <= set(tried.stdout.splitlines())


def test_keys_of_desks_let_in_the_desks_user_alone():
    """Also on the second machine: whoever types at a desk is never the user who owns disk and log."""
    page = (TOP / "docs/OPERATING.md").read_text()
    found = re.findall(r"`(/\S+)/\.ssh/authorized_keys`|command=\"([\w-]+)", page)
    assert ["".join(it) for it in found] == ["/home/desk", "zhcount-desk", "zhcount-desk", "/var/lib/zhcount", "zhcount-witness",
                                             "/home/lead", "cat"]
    assert "Create the same [users](#users)" in page.split("\n## A second machine\n")[1].split("\n## ")[0]


@pytest.mark.skipif(os.getuid() != 0, reason="only root may make users and mount")
def test_what_operating_says_works(unpacked):
    typed = ran(TOP / "tests/installed/operate", f"{unpacked}.tar.gz", timeout=3600)
    assert typed.returncode == 0, typed.stdout


def test_all_say_one_version():
    parts = ("docs", "crates/zh_program/src", "crates/zh_program/specs")
    pages = [TOP / "README.md", *(it for part in parts for it in (TOP / part).rglob("*.*"))]
    said = [it for page in pages for it in re.findall(rb"(?:zhcount[- ]|Version )(\d+\.\d+\.\d+)", page.read_bytes())]
    assert set(said) == {VERSION.encode()}
    assert f"'{VERSION}'" in (TOP / "page/index.html").read_text()
    assert ran(PROGRAM, "--version").stdout == f"zhcount {VERSION}\n"
    newest = re.search("^## .*", (TOP / "CHANGELOG.md").read_text(), re.M)[0]
    assert re.fullmatch(rf"## {re.escape(VERSION)}, \d+ [A-Z][a-z]+ \d{{4}}", newest)
