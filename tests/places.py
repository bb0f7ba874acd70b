"""Where the things stand that the tests are about. ZHCOUNT names another program than the one that was built here."""
import os
import pathlib

TOP = pathlib.Path(__file__).resolve().parents[1]
PROGRAM = pathlib.Path(os.environ.get("ZHCOUNT") or TOP / "crates/zhcount/out/zhcount").resolve()
CASES = TOP / "crates/zh_cases/data"
REHEARSAL = TOP / "crates/zh_setups/data/rehearsal.toml"
ZURICH = TOP / "examples/zurich2006"
PROGRAMS_OF_CASES = TOP / "crates/zh_cases/out/zh_cases", PROGRAM
