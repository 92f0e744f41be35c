"""What the documents show of the front end holds: the commands of README and of docs/FRONT-END.md with what they print, and its Python."""
import os
import re
import subprocess
import sys

import pytest
from conftest import ROOT

from flaxglimmer import cli

README = (ROOT / "README.md").read_text(encoding="utf-8")
FRONT_END = (ROOT / "docs" / "FRONT-END.md").read_text(encoding="utf-8")


@pytest.fixture
def place(tmp_path):
    """A folder with what the commands name, so that nothing is written to the repository."""
    for name in ("flaxglimmer", "scans", "sheets"):
        (tmp_path / name).symlink_to(ROOT / name)
    return tmp_path


def commands(document):
    """The commands of its consoles, each with what it prints."""
    consoles = "".join(re.findall(r"^```console\n(.*?)^```$", document, re.M | re.S))
    return re.findall(r"^\$ (.*)\n((?:(?!\$ ).*\n)*)", consoles, re.M)


def test_readme_shows_what_the_command_prints(place):
    assert [shown(place, *one) for one in commands(README)] == [0, 0, 1, 0, 0]
    assert (place / "report.html").exists()


def test_the_page_shows_the_two_feet_what_becomes_of_a_mailed_log_a_job_and_flips(place):
    assert [shown(place, *one) for one in commands(FRONT_END)] == [0, 0, 0, 0, 1, 0, 1, 0, 0, 1, 0, 0, 0, 0, 1]


def shown(place, command, printed):
    ran = subprocess.run(command, shell=True, cwd=place, stdout=subprocess.PIPE, stderr=subprocess.STDOUT, text=True)
    assert ran.stdout == printed, command
    return ran.returncode


def test_the_python_of_the_document_runs(place):
    (code,) = re.findall(r"^```python\n(.*?)^```$", FRONT_END, re.M | re.S)
    ran = subprocess.run([sys.executable, "-c", code], cwd=place, env={**os.environ, "PYTHONPATH": str(ROOT / "python")}, capture_output=True, text=True)
    assert ran.returncode == 0, ran.stderr
    assert ran.stdout.splitlines()[-1].split()[-1] == "29" and (place / "report.html").exists()
    assert "True" in ran.stdout.splitlines()  # flips that were undone


def test_every_command_option_and_exit_is_named():
    for name, command in cli.main.commands.items():
        assert f"`flaxglimmer {name}" in FRONT_END, name
        for parameter in command.params:
            for option in parameter.opts:
                assert not option.startswith("--") or f"`{option}" in FRONT_END, option
    assert re.findall(r"^\| (\d) \|", FRONT_END, re.M) == re.findall(r"^ *(?:Exit: )?(\d)  ", cli.EXITS, re.M) == list("012345")
