"""What the tests share: the examples, their replays, and ways to call the tools."""
import functools
import os
import shutil
import subprocess
import sys
import tempfile
import unittest

HERE = os.path.dirname(os.path.abspath(__file__))
sys.path.insert(0, os.path.dirname(HERE))
from common import places

EXAMPLES = os.path.join(places.ROOT, "examples")
INDEPENDENT = os.path.join(places.TOOLS, "independent", "replay.py")
# the examples of the commands that run a schedule; `replay` and those that have lines of their own
REPLAYS = sorted(name for name in os.listdir(EXAMPLES) if name.startswith(("replay-", "handshake-", "check-")))
PLAIN = [name for name in REPLAYS if name.startswith("replay-")]
# those whose packets have labels of the domain file alone, so that captures can be read without their schedules
UNMOVED = [name for name in REPLAYS if name != "replay-relabel"]
SCRATCH = tempfile.TemporaryDirectory()


def needs(command, package):
    return unittest.skipUnless(shutil.which(command), f"{command} isn't installed (Debian: {package})")


def program():
    """The built program, or the independent one, which has the same arguments."""
    return places.built_program() or INDEPENDENT


def tool(name, *words, env=None, timeout=120):
    """Runs a tool; what it prints, and its status."""
    path = os.path.join(places.TOOLS, name)
    return subprocess.run([path, *words], capture_output=True, text=True, timeout=timeout, env={**os.environ, **(env or {})})


class Replay:
    """An example that was replayed: its files."""

    def __init__(self, name, folder):
        self.name, self.folder = name, folder
        self.domain, self.schedule, self.report, self.frames = (
            os.path.join(folder, part) for part in ("domain.toml", "schedule", "report", "frames")
        )
        self.files = [self.domain, self.schedule, self.report, self.frames]


def command_of(name):
    """The command of an example."""
    return read(os.path.join(EXAMPLES, name, "words")).split()[0]


@functools.cache
def replayed(name):
    """Runs an example by its command; also one whose schedule is rejected."""
    folder = os.path.join(SCRATCH.name, name)
    os.makedirs(folder)
    for part in ("domain.toml", "schedule"):
        shutil.copyfile(os.path.join(EXAMPLES, name, part), os.path.join(folder, part))
    words = [program(), command_of(name), "domain.toml", "schedule", "frames"]
    done = subprocess.run(words, cwd=folder, capture_output=True, timeout=120)
    assert done.returncode in (0, 4), (name, done.returncode, done.stderr)
    with open(os.path.join(folder, "report"), "wb") as file:
        file.write(done.stdout)
    return Replay(name, folder)


def scratch(name):
    """A path for a file that a test writes."""
    return os.path.join(SCRATCH.name, name)


def read(path):
    with open(path) as file:
        return file.read()


def write(name, octets):
    path = scratch(name)
    with open(path, "wb") as file:
        file.write(octets if isinstance(octets, bytes) else octets.encode())
    return path


@functools.cache
def python_alone():
    """A folder with python3 and nothing else, as the PATH of a tool."""
    folder = scratch("python")
    os.makedirs(folder)
    os.symlink(os.path.realpath(sys.executable), os.path.join(folder, "python3"))
    return folder
