"""What the scripts of the fleet share: the client of the repository, the program and its digest, and one sentence where something is missing."""
import hashlib
import importlib.util
import os
import signal
import subprocess
import sys
from pathlib import Path

HERE = Path(__file__).resolve().parent
ROOT = HERE.parents[1]
sys.path.insert(0, str(ROOT / "clients/python"))

MISSING = 69


def fail(text, status=1):
    print(f"{Path(sys.argv[0]).name}: {text}", file=sys.stderr)
    sys.exit(status)


def need_packages():
    """Goes on only where psycopg is there: under this Python, or under Debian's, whose package python3-psycopg it is."""
    if importlib.util.find_spec("psycopg"):
        return
    debian = "/usr/bin/python3"
    if os.path.realpath(sys.executable) != os.path.realpath(debian) and os.access(debian, os.X_OK):
        if subprocess.run([debian, "-c", "import psycopg"], capture_output=True).returncode == 0:
            os.execv(debian, [debian, *sys.argv])
    fail("the Python package psycopg is not here; on Debian it is python3-psycopg", MISSING)


def end_by_term():
    """TERM ends a script as an exception does: what it started is ended, and its folder removed."""
    signal.signal(signal.SIGTERM, lambda *_: sys.exit(143))


def find_program():
    """The program that markets run: DAGGRE, or the one that bin/daggre of the repository builds, without the script in between."""
    named = os.environ.get("DAGGRE")
    if named:
        if not os.access(named, os.X_OK):
            fail(f"{named}, which the variable DAGGRE names, is no program")
        return os.path.abspath(named)
    if subprocess.run([ROOT / "bin/daggre"], stdin=subprocess.DEVNULL, stdout=subprocess.DEVNULL).returncode != 1:
        fail("the program is not there and cannot be built", MISSING)
    return str(ROOT / "crates/daggre/out/daggre")


def build_of(program):
    """The digest of a program: a market stays with the one it began with, since another may give other intervals that are as right."""
    return hashlib.sha256(Path(program).read_bytes()).hexdigest()[:16]
