"""make run, make build and make test: which program is run and called proved, and which crate is refused. They run on a small copy of
the repository, in a folder with a blank in its name, with a stand-in for the toolchain, and prove nothing."""
import os
import shutil
import subprocess

import pytest

from places import TOP

RT = "#!/usr/bin/env bash\n" + (TOP / "tests/stand_in_rt.txt").read_text()
PROVED, UNPROVED = "proved text of zh_low: 1 open\n", "unproved: 1 open\n"
RUN = "echo 1 open | make -s run"
CHANGE = "echo changed text > $LOW"
CHANGE_BACK = "echo text of zh_low > $LOW"
AT_WORK = "until grep -q ' of ' log 2> /dev/null; do sleep 0.1; done"


@pytest.fixture
def sh(tmp_path):
    """Runs commands in the small copy: what they say, what they complain of, and their status."""
    top = tmp_path / "a checkout"
    for crate in ("zh_cases", "zh_low", "zhcount"):
        (top / "crates" / crate / "src").mkdir(parents=True)
        (top / "crates" / crate / "src/lib.rt").write_text(f"text of {crate}\n")
    (top / "crates.txt").write_text("zh_low: thiserror\nzhcount: zh_low\nzh_cases: zhcount\n")
    for it in ("scripts", "tests/edited"):
        shutil.copytree(TOP / it, top / it)
    shutil.copy(TOP / "Makefile", top)
    (top / "bin").mkdir()
    (top / "bin/rt").write_text(RT)
    (top / "bin/rt").chmod(0o755)
    environment = {**os.environ, "ROOM": str(top), "LOW": "crates/zh_low/src/lib.rt", "PATH": f"{top}/bin:{os.environ['PATH']}"}
    environment.pop("ZHCOUNT", None)

    def ran(command):
        it = subprocess.run(["bash", "-c", command], cwd=top, stdin=subprocess.DEVNULL, capture_output=True, text=True, timeout=600,
                            env=environment)
        return it.stdout, it.stderr, it.returncode

    return ran


@pytest.fixture
def built(sh):
    """The same after make build."""
    said = sh("make -s build")[0]
    assert "zh_low proved, " in said and said.endswith("the program is crates/zhcount/out/zhcount\n"), said
    return sh


@pytest.mark.parametrize("command, reason", [
    ("make -s install", "run 'make build' first"),
    ("make -s dist", "run 'make build' first"),
    (f"touch uncompiled; {RUN}", "error: no such function"),
    (f"echo new text > changed; {RUN}", "the sources changed"),
    ("scripts/build zhcuont", "crate 'zhcuont'"),
    ("scripts/sources below zhcuont", "crate 'zhcuont'"),
])
def test_what_can_not_be_done_is_refused_with_the_reason(sh, command, reason):
    said, errors, status = sh(command)
    assert said == "" and reason in errors and status


def test_what_is_not_proved_runs_unproved_and_is_compiled_once(sh):
    said, errors, _ = sh(RUN)
    assert said == UNPROVED and "make build" in errors and "proved=no" not in errors
    for change, times in ((":", 1), (CHANGE, 2), ("echo exit 1 >> crates/zhcount/out/unproved/zhcount", 3)):
        sh(change)
        assert sh(RUN)[0] == UNPROVED and sh("cat compiled")[0] == "x\n" * times


@pytest.mark.parametrize("command, answers", [
    ("(echo 1 open; sleep 3; echo 1 drop) | make -s run", "unproved: 1 open\nunproved: 1 drop\n"),
    # At a terminal, where it ends with Ctrl-D.
    (r"(sleep 1; printf '1 open\n\004'; until [ -e ended ]; do sleep 0.1; done) | (script -qc 'make -s run' /dev/null; touch ended) |"
     r" tr -d '\r' | grep unproved:", "unproved: 1 open\n"),
])
def test_a_slow_input_is_whole(sh, command, answers):
    assert sh(command)[0] == answers


@pytest.mark.parametrize("change, answer", [
    (":", PROVED),
    (CHANGE, UNPROVED),
    (f"{CHANGE}; {RUN}; {CHANGE_BACK}", PROVED),
    ("touch -d '+1 hour' $LOW", PROVED),
    ("echo changed text > crates/zh_cases/src/lib.rt", PROVED),  # zhcount does not use it
    ("mkdir crates/zh_low/proofs; touch crates/zh_low/proofs/New.antt", UNPROVED),
    ("sed -i 's/^zh_low: /&itoa /' crates.txt", UNPROVED),  # another library
    ("sed -i 's/kit of/other &/' bin/rt", UNPROVED),  # another toolchain
    (f"{CHANGE}; (cd crates/zhcount && rt run); {CHANGE_BACK}", UNPROVED),  # another program
    (f"{CHANGE}; HELD=yes make -s build > log & {AT_WORK}; kill $!; wait; touch go", UNPROVED),
])
def test_only_the_program_of_these_sources_is_called_proved(built, change, answer):
    built(change)
    said, errors, _ = built(RUN)
    assert said == answer and (errors == "") == (answer == PROVED)


@pytest.mark.parametrize("name", ["zhcount", "zh_cases"])
def test_what_is_proved_is_not_proved_again(built, name):
    built(f"scripts/build {name}")
    assert built(f"scripts/build {name}")[0] == f"these sources are proved; the program is crates/{name}/out/{name}\n"
    assert "zh_low proved, " in built(f"{CHANGE}; scripts/build {name}")[0]


def test_a_first_check_says_what_comes_before(sh):
    assert sh("make -s check CRATE=zh_low") == ("logic=proved\n", "", 0)
    said = sh("make -s check CRATE=zhcount")[0]
    assert said.startswith("crates below this one come first, 1 at most, ") and said.endswith("\nlogic=proved\n")
    assert sh("make -s check CRATE=zhcount") == ("logic=proved\n", "", 0)


def test_a_build_that_is_refused_names_its_crate(built):
    said, _, status = built(f"touch refused; {CHANGE}; make -s build")
    assert status and "zh_low is NOT proved" in said
    assert built(RUN)[0] == UNPROVED


def test_sources_that_change_under_a_build_are_not_proved(built):
    _, errors, status = built(f"{CHANGE}; HELD=yes make -s build > log & {AT_WORK}; echo new text > $LOW; touch go; wait $!")
    assert status and "the sources changed" in errors
    assert built(RUN)[0] == UNPROVED
    assert built(f"make -s build > log; {RUN}") == ("proved new text: 1 open\n", "", 0)


def test_a_program_that_was_there_is_not_noted_as_proved(built):
    """It is of other sources, and rt ci leaves it in place."""
    built("for it in tests/edits scripts/test-needs scripts/lint bin/python; do cp /bin/true $it; done")
    said = built(f"{CHANGE}; (cd crates/zhcount && rt run); {CHANGE_BACK}; PYTHON=$ROOM/bin/python make -s test")
    assert said[2] == 0, said
    assert built(RUN) == (PROVED, "", 0)


@pytest.mark.parametrize("target, words", [("shape", "tests/pages check"), ("refused", "-m pytest -v tests/test_refused.py")])
def test_another_python_is_taken(target, words, sh):
    said = sh(f'cp /bin/true scripts/test-needs; cp /bin/echo bin/python; make -s {target} PYTHON="$ROOM/bin/python"')
    assert said[0] == f"{words}\n"


@pytest.mark.long
def test_the_wrong_bodies_of_what_changed_are_refused():
    """Over what `rt ci` has proved."""
    words = ["nice", "-n", "10", TOP / "tests/edits"]
    ran = subprocess.run(words, stdin=subprocess.DEVNULL, stdout=subprocess.PIPE, stderr=subprocess.STDOUT, text=True)
    assert ran.returncode == 0, ran.stdout
