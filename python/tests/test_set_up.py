"""Set-up: what is installed and when, the library built once and then left, the wheel. Nothing is installed here: apt-get and rt are stand-ins."""
import base64
import csv
import hashlib
import os
import resource
import shutil
import subprocess
import sys
import zipfile

import pytest
from conftest import ROOT
from scans import shaft, stl

LINE = "apt-get install --no-install-recommends --no-upgrade --no-remove python3-numpy python3-click python3-jinja2 python3-nosuch"


@pytest.fixture
def copy(tmp_path):
    """The command in a folder of its own, where it needs a module that nobody has; programs on its PATH write what they were asked."""
    root, bin = tmp_path / "root", tmp_path / "bin"
    (root / "tools").mkdir(parents=True)
    bin.mkdir()
    shutil.copy(ROOT / "flaxglimmer", root)
    needs = (ROOT / "tools" / "needs").read_text()
    (root / "tools" / "needs").write_text(needs.replace("modules=(numpy click jinja2)", "modules=(numpy click jinja2 nosuch)"))
    program(root / "tools" / "shared-library", "echo library >>$ASKED")
    program(bin / "apt-get", 'echo "apt-get $*" >>$ASKED')
    program(bin / "apt-cache", "exit 0")
    program(bin / "id", "echo 0")

    def running(*arguments, command="flaxglimmer", **environment):
        asked = tmp_path / "asked"
        asked.unlink(missing_ok=True)
        ended = subprocess.run([root / command, *arguments], capture_output=True, text=True, env={**os.environ, "PATH": f"{bin}:{os.environ['PATH']}", "ASKED": str(asked), **environment})
        ended.asked = asked.read_text().splitlines() if asked.exists() else []
        return ended

    running.bin = bin
    return running


def program(path, text):
    path.write_text(f"#!/bin/sh\n{text}\n")
    path.chmod(0o755)


def test_other_commands_print_the_line_and_end_with_2(copy):
    told = copy("thin", "a.stl", "--unit", "m", "--limit", "none")
    assert told.returncode == 2 and told.asked == [] and told.stdout == "" and told.stderr.count("\n") == 1 and LINE in told.stderr


def test_set_up_says_what_it_installs_and_installs_it(copy):
    told = copy("set-up")
    assert told.stderr.splitlines()[0] == f"installing from Debian: {LINE}" and told.asked == [f"{LINE} -y"]
    # the module is still not there afterwards: that is no set-up
    assert told.returncode == 2 and "no Python has numpy click jinja2 nosuch after the installation" in told.stderr


def test_set_up_may_be_forbidden(copy):
    told = copy("set-up", FLAXGLIMMER_INSTALL="no")
    assert told.returncode == 2 and told.asked == [] and f"FLAXGLIMMER_INSTALL=no: nothing is installed; this would be: {LINE}" in told.stderr


def test_lists_of_packages_are_fetched_where_there_are_none(copy):
    program(copy.bin / "apt-cache", "exit 1")
    assert copy("set-up").asked == ["apt-get update", f"{LINE} -y"]


def test_set_up_by_a_sudo_that_asks_nothing(copy):
    program(copy.bin / "id", "echo 1000")
    program(copy.bin / "sudo", 'echo "sudo $*" >>$ASKED')
    assert copy("set-up").asked == ["sudo -n true", f"sudo -n {LINE} -y"]
    program(copy.bin / "sudo", "exit 1")
    told = copy("set-up")
    assert told.returncode == 2 and told.asked == [] and f"as root: {LINE}" in told.stderr


def test_the_gate_installs_what_it_needs_before_its_parts(copy, tmp_path):
    root = tmp_path / "root"
    shutil.copy(ROOT / "test", root)
    (root / "crates").mkdir()
    (root / "crates.txt").write_text("one:\n")
    (root / "tests").mkdir()
    program(root / "tools" / "quick", 'echo quick >>$ASKED; echo "1 passed, 0 failed"')
    program(root / "tests" / "one", 'echo one >>$ASKED; echo "2 passed, 0 failed"')
    program(copy.bin / "rt", "exit 1")
    line = f"{LINE} python3-pytest python3-hypothesis"
    for environment, asked, told in (({}, [f"{line} -y", "quick", "one"], f"installing from Debian: {line}"), ({"FLAXGLIMMER_INSTALL": "no"}, ["quick", "one"], f"nothing is installed; this would be: {line}")):
        ended = copy("quick", command="test", **environment)
        assert ended.returncode == 0 and ended.stdout.splitlines()[-1] == "3 passed, 0 failed"
        assert ended.asked == asked and told in ended.stderr


def test_set_up_where_all_is_there(script):
    told = script("flaxglimmer", "set-up", FLAXGLIMMER_INSTALL="no")
    assert told.returncode == 0 and told.stderr == "" and "all is set up" in told.stdout


def test_a_later_start_asks_nothing_of_the_kit(script, tmp_path):
    program(tmp_path / "rt", "echo asked >&2; exit 1")
    told = script("flaxglimmer", "limit", "0.3 m", PATH=f"{tmp_path}:/usr/bin:/bin")
    assert (told.returncode, told.stdout, told.stderr) == (0, "29 cm\n", "")


@pytest.fixture
def tree(tmp_path):
    """The sources of the library in a folder of their own, with one of them changed."""
    for name in ("crates", "include", "tools"):
        shutil.copytree(ROOT / name, tmp_path / "tree" / name, ignore=shutil.ignore_patterns("out"))
    shutil.copy(ROOT / "crates.txt", tmp_path / "tree")
    (tmp_path / "tree" / "target" / "native").mkdir(parents=True)
    shutil.copy(ROOT / "target" / "native" / "libflaxglimmer.so", tmp_path / "tree" / "target" / "native")
    return tmp_path / "tree"


def build(tree, path):
    return subprocess.run([tree / "tools" / "shared-library"], capture_output=True, text=True, env={**os.environ, "PATH": path})


def test_the_library_is_built_anew_when_a_source_changed(tree, tmp_path):
    assert build(tree, "/usr/bin:/bin").stderr == ""
    with open(tree / "crates" / "ints" / "src" / "lib.rt", "a") as source:
        source.write("// another line\n")
    told = build(tree, "/usr/bin:/bin")
    assert told.returncode == 2 and "the Rattle kit's command rt is not on the PATH" in told.stderr


def test_building_says_how_far_it_is(tree, tmp_path):
    (tree / "target" / "native" / "libflaxglimmer.so").unlink()
    said = ["fn surface::rows: proved", "crate surface: modules loaded=0 checked=9", "logic=proved functions=1 sum=0", "src/lib.rt:3:1: error: not so", "crate corners: modules loaded=7 checked=1", "logic=not-proved", "rt: the library corners did not build, so nothing above it was checked"]
    program(tmp_path / "rt", "\n".join(['[ "$1" != version ] || exit 0', *(f"echo '{line}'" for line in said), "exit 1"]))
    told = build(tree, f"{tmp_path}:/usr/bin:/bin")
    lines = told.stderr.splitlines()
    below = {"bridge_c"}
    for line in reversed((tree / "crates.txt").read_text().splitlines()):
        name, _, reads = line.partition(":")
        below |= set(reads.split()) if name.split(" ")[0] in below else set()
    assert f"{len(below)} crates" in lines[0]
    assert lines[1:3] == [f"flaxglimmer: 1 of at most {len(below)}: surface proved", f"flaxglimmer: 2 of at most {len(below)}: corners NOT PROVED"]
    assert told.returncode == 2 and lines[-1] == "flaxglimmer: something is not proved, or no archive was written"
    assert lines[3:-1] == ["src/lib.rt:3:1: error: not so", "logic=not-proved", "rt: the library corners did not build, so nothing above it was checked"]
    assert not (tree / "target" / "native" / "libflaxglimmer.so").exists()


def test_a_run_of_1000_rows_with_its_report_takes_under_a_second(script, tmp_path):
    stl(tmp_path / "a.stl", *shaft(16, 31))
    before = resource.getrusage(resource.RUSAGE_CHILDREN)
    told = script("flaxglimmer", "thin", tmp_path / "a.stl", "--unit", "m", "--limit", "0.8 m", "--report", tmp_path / "r.html")
    after = resource.getrusage(resource.RUSAGE_CHILDREN)
    assert told.returncode == 0 and (tmp_path / "r.html").stat().st_size > 50_000
    assert (after.ru_utime - before.ru_utime) + (after.ru_stime - before.ru_stime) < 1


def test_no_module_is_taken_from_the_folder_of_the_scan(tmp_path):
    for name in ("numpy", "json", "click"):
        (tmp_path / f"{name}.py").write_text("raise SystemExit('taken')\n")
    told = subprocess.run([ROOT / "flaxglimmer", "limit", "1 m"], cwd=tmp_path, capture_output=True, text=True)
    assert (told.returncode, told.stdout) == (0, "100 cm\n")


def test_the_wheel_has_the_library_and_works_without_the_repository(script, tmp_path):
    told = script("tools/wheel")
    assert told.returncode == 0, told.stderr
    place = next((ROOT / "target" / "wheel").glob("*.whl"))
    first = place.read_bytes()
    assert script("tools/wheel").returncode == 0 and place.read_bytes() == first
    assert place.name.endswith(f"-py3-none-linux_{os.uname().machine}.whl")
    with zipfile.ZipFile(place) as wheel:
        wheel.extractall(tmp_path)
        record = next(name for name in wheel.namelist() if name.endswith("RECORD"))
        listed = list(csv.reader(wheel.read(record).decode().splitlines()))
        assert sorted(name for name, _, _ in listed) == sorted(wheel.namelist())
        for name, digest, length in listed[:-1]:
            data = wheel.read(name)
            assert digest == "sha256=" + base64.urlsafe_b64encode(hashlib.sha256(data).digest()).decode().rstrip("=") and int(length) == len(data)
        assert b"flaxglimmer = flaxglimmer.cli:start" in wheel.read(record.replace("RECORD", "entry_points.txt"))
    environment = {"PATH": "/usr/bin:/bin", "PYTHONPATH": str(tmp_path)}
    code = "import sys, flaxglimmer._native as n; print(n.library()._name); from flaxglimmer.cli import start; sys.argv = ['flaxglimmer', 'limit', '0.3 m']; start()"
    told = subprocess.run([sys.executable, "-c", code], cwd=tmp_path, env=environment, capture_output=True, text=True)
    assert told.stdout.splitlines() == [str(tmp_path / "flaxglimmer" / "libflaxglimmer.so"), "29 cm"], told.stderr
