"""The tests run the program of DAGGRE, else the built one of the repository; where neither is there, tests that need it are skipped."""
import os
import sys
from pathlib import Path

import pytest

HERE = Path(__file__).resolve().parent
ROOT = HERE.parents[2]
sys.path.insert(0, str(HERE.parent))
EXAMPLES = ROOT / "examples"


def program():
    named = os.environ.get("DAGGRE")
    built = ROOT / "crates/daggre/out/daggre"
    return named or (str(built) if os.access(built, os.X_OK) else None)


@pytest.fixture
def built(monkeypatch):
    found = program()
    if found is None:
        pytest.skip("the program is not built")
    monkeypatch.setenv("DAGGRE", found)
    return found


@pytest.fixture
def example():
    return lambda name: EXAMPLES / f"{name}.toml"


@pytest.fixture
def scripted(tmp_path):
    """A program of a few lines of Python that does what a market never does."""

    def make(body):
        path = tmp_path / "scripted"
        path.write_text(f"#!{sys.executable}\nimport os, sys, time\n{body}\n")
        path.chmod(0o755)
        return path

    return make
