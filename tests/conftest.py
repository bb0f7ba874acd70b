"""What all tests share. `pytest tests` runs them all, but for `rt ci` and what is slow; -k and -m choose some (docs/CONTRIBUTING.md)."""
import compileall
import importlib
import os
import pathlib
import re
import shutil
import signal
import subprocess
import sys
import tempfile
import threading

import pytest

from places import PROGRAM, TOP

pytest.register_assert_rewrite(*(it.stem for it in (TOP / "tests/desks").glob("*.py")))
sys.dont_write_bytecode = True
os.environ["PYTHONDONTWRITEBYTECODE"] = "1"  # of the scripts that are run
# Scripts are run by the Python that runs the tests: one that is found by a shim takes ten times as long to start.
os.environ["PATH"] = os.pathsep.join([os.path.dirname(sys.executable), os.environ["PATH"]])
if "ZHCOUNT" in os.environ:
    os.environ["ZHCOUNT"] = str(PROGRAM)  # wherever they are run


def pytest_xdist_auto_num_workers():
    """Most tests wait for other processes, so that more run at once than there are processors."""
    return 2 * len(os.sched_getaffinity(0))


def pytest_configure(config):
    """A shell that starts the tests in the background has INT ignored; an office would be started so, and not hear it. The scripts of
    desks/ are tested in a copy, whose modules are compiled: a script starts in half the time."""
    if hasattr(config, "workerinput") or threading.current_thread() is not threading.main_thread():  # a worker inherits both
        return
    signal.signal(signal.SIGINT, signal.default_int_handler)
    if "DESKS" not in os.environ:
        config.room = tempfile.TemporaryDirectory(prefix="zhcount-")
        os.environ["DESKS"] = str(shutil.copytree(TOP / "desks", pathlib.Path(config.room.name, "desks")))
        compileall.compile_dir(os.environ["DESKS"], quiet=1)


@pytest.hookimpl(tryfirst=True)
def pytest_collection_modifyitems(items):
    """What takes minutes begins first, so that nothing waits for it at the end. The page is tried beside the proofs, but for what needs the
    program."""
    items.sort(key=lambda it: not it.get_closest_marker("long"))
    for it in items:
        if re.search(r"tests/page/|\[page-", it.nodeid) and "program" not in it.fixturenames and not it.get_closest_marker("sources"):
            it.add_marker(pytest.mark.beside)


def pytest_terminal_summary(terminalreporter):
    """Each test that was run again is named, with what it reported. What was seen of all mistakes is kept."""
    passed = {it.nodeid for it in terminalreporter.stats.get("passed", [])}
    if any("test_plants.py::test_mistake" in it for it in passed):
        importlib.import_module("test_plants").keep_sums(passed)
    again = terminalreporter.stats.get("rerun", [])
    terminalreporter.section(f"{len(again)} run again")
    for it in again:
        said = str(getattr(getattr(it.longrepr, "reprcrash", None), "message", it.longrepr)).split("\n")
        terminalreporter.line(f"run again: {it.nodeid}: {': '.join(said[:2])}")


@pytest.fixture
def tmp_path(tmp_path):
    """A folder that goes with its test."""
    yield tmp_path
    shutil.rmtree(tmp_path, ignore_errors=True)


@pytest.fixture(scope="session")
def program():
    """The program's path."""
    if not os.access(PROGRAM, os.X_OK):
        pytest.fail(f"the program {PROGRAM} does not exist: make build makes it")
    return PROGRAM


@pytest.fixture(scope="session")
def library(tmp_path_factory):
    """What tests/refusing.py preloads."""
    path = tmp_path_factory.mktemp("refuse") / "refuse.so"
    subprocess.run(["cc", "-shared", "-fPIC", "-O1", "-o", path, TOP / "tests/refuse.c", "-ldl"], check=True)
    return path
