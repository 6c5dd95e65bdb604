"""What is written about the package: the commands of docs/PLANNING.md print what stands under them, its term is the night's, and its
table of the notation is read; the examples in Python give what they say."""

import doctest
import os
import re
import shutil
import subprocess
import sys
from pathlib import Path

import pytest

import wigandoy

ROOT = Path(__file__).resolve().parents[2]
PAGE = (ROOT / "docs" / "PLANNING.md").read_text()


def blocks():
    """The indented blocks of the page."""
    return [re.sub(r"(?m)^    ", "", block).strip("\n") for block in re.findall(r"(?:(?:^    .*)?\n)+", PAGE, re.M) if block.strip()]


def test_commands(nights, tmp_path):
    here = tmp_path / "nights"
    shutil.copytree(nights, here)
    found = [block for block in blocks() if block.startswith("$ ")]
    assert len(found) == 4
    for command, expected in re.findall(r"^\$ (.*)\n?((?:(?!\$ ).*\n?)*)", "\n".join(found), re.M):
        if " report " in command:
            pytest.importorskip("matplotlib")
        command = command.replace("python3", sys.executable)
        done = subprocess.run(command, shell=True, cwd=here, capture_output=True, text=True, env={**os.environ, "PYTHONPATH": str(ROOT / "python")})
        assert (done.stdout.strip(), done.stderr) == (expected.strip(), ""), command


def test_the_term_is_the_night(nights):
    term = next(block for block in blocks() if block.startswith("[dark"))
    assert wigandoy.read(term).table == wigandoy.read((nights / "telescopes.cows").read_text()).table


def test_the_table_of_the_notation():
    rows = re.findall(r"^\| (`.*?) \| (`.*?`)? ?\| .* \|$", PAGE, re.M)
    assert len(rows) == 10
    for texts in rows:
        read = [wigandoy.read(re.sub(r"\b[st]\b", "0", text.replace("\\|", "|"))).table
                for cell in texts for text in re.findall(r"`(.*?)`", cell)]
        if texts[1]:
            assert len(set(read)) == 1


def test_examples_in_python():
    for failed, tried in (doctest.testmod(wigandoy), doctest.testfile(str(ROOT / "README.md"), module_relative=False)):
        assert tried and not failed
