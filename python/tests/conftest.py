"""What all tests share: hypothesis without chance and without files, no network, and the command run in this process."""
import json
import os
import socket
import subprocess
from pathlib import Path
from types import SimpleNamespace

import pytest
from hypothesis import HealthCheck, settings

from flaxglimmer import cli

ROOT = Path(__file__).resolve().parents[2]

settings.register_profile("gate", derandomize=True, database=None, deadline=None, suppress_health_check=[HealthCheck.too_slow, HealthCheck.data_too_large])
settings.load_profile("gate")


def _no_network(*_):
    raise AssertionError("a test went to the network")


socket.socket.connect = _no_network


@pytest.fixture
def run(capsys):
    """Runs the command: exit, both outputs, and the object where --json was asked."""

    def running(*arguments):
        ended = cli.entry([str(argument) for argument in arguments])
        out, err = capsys.readouterr()
        return SimpleNamespace(exit=ended, out=out, err=err, told=json.loads(out) if "--json" in arguments and ended != 2 else None)

    return running


@pytest.fixture
def script():
    """Runs a script of the repository, with an environment of its own."""

    def running(*arguments, **environment):
        return subprocess.run([ROOT / arguments[0], *map(str, arguments[1:])], capture_output=True, text=True, env={**os.environ, **environment})

    return running
