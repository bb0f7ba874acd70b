"""page/seal as a Python module."""
import runpy
from types import SimpleNamespace

from places import TOP

SEAL = SimpleNamespace(**runpy.run_path(str(TOP / "page" / "seal"), run_name="seal"))
