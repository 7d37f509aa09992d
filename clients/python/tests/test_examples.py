"""The examples that are written with the client."""
import subprocess
import sys

import pytest
from conftest import EXAMPLES

pytestmark = pytest.mark.usefixtures("built")


def run(*words, text=""):
    done = subprocess.run([sys.executable, *map(str, words)], input=text, capture_output=True, text=True, timeout=30)
    return done.returncode, done.stdout, done.stderr


@pytest.mark.parametrize("plain", [[], ["-S"]])
def test_the_operator_runs_also_where_nothing_was_imported_before(plain):
    status, out, err = run(*plain, EXAMPLES / "operator.py")
    assert (status, err) == (0, "") and out.endswith("status 0\n")


def test_the_operator_says_in_one_sentence_that_there_is_no_program(monkeypatch):
    monkeypatch.setenv("DAGGRE", "/no/such/program")
    status, out, err = run(EXAMPLES / "operator.py")
    assert (status, out) == (1, "") and err.count("\n") == 1 and "no such program" in err


def keep(log, text="", market="coin.toml"):
    return run(EXAMPLES / "kept.py", EXAMPLES / market, log, text=text)


def test_a_market_is_kept_through_restarts(tmp_path):
    log = tmp_path / "log"
    assert keep(log, "user alice\n\ndeposit alice 1\r\nprice edge\n") == (0, "user alice at 1\ndeposit alice 1 at 2\nrefused syntax\n", "")
    assert keep(log, "worst alice") == (0, "worst 100..100\n", "")
    assert log.read_text() == "user alice\ndeposit alice 1\nprice edge\nworst alice\n"


def test_a_line_that_was_cut_was_never_sent(tmp_path):
    log = tmp_path / "log"
    log.write_text("user alice\ndeposit alice 1")
    assert keep(log, "worst alice\n") == (0, "worst 0..0\n", "")
    assert log.read_text() == "user alice\nworst alice\n"


def test_one_process_keeps_a_log(tmp_path):
    import fcntl

    log = tmp_path / "log"
    with open(log, "w") as other:
        fcntl.flock(other, fcntl.LOCK_EX)
        status, out, err = keep(log, "user alice\n")
    assert status == 1 and out == "" and "kept by another" in err and log.read_text() == ""


def test_a_refused_file_leaves_no_log(tmp_path):
    log = tmp_path / "log"
    assert keep(log, "user alice\n", "coin.commands") == (1, "", "refused market toml\n")
    assert not log.exists()


def test_wanting_memory_is_no_reply(tmp_path, scripted, monkeypatch):
    body = "print('ready 1 100', flush=True)\nfor line in sys.stdin:\n    print('refused memory' if 'bob' in line else 'user alice at 1', flush=True)"
    monkeypatch.setenv("DAGGRE", str(scripted(body)))
    status, out, err = keep(tmp_path / "log", "user alice\nuser bob\nuser cleo\n")
    assert status == 1 and out == "user alice at 1\n" and "memory" in err
