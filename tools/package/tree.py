"""What stands in the package: each path with its octets, mode, or the target of a link."""
import dataclasses
import glob
import gzip
import hashlib
import os
import re
import subprocess

from common import places
from common.trouble import Trouble, read_octets

from . import man

TOOLS = ("check-capture", "design", "fail-each", "heard", "import", "lint", "live", "picture", "player", "storm", "sweep")
BESIDE = ("isis_dump", "live_router", "show_router")  # programs beside the product
PROGRAMS = {"bier_domain": "usr/libexec/mastdamson/bier_domain", **{name: f"usr/bin/{name}" for name in BESIDE}}
SHARE, DOC, MAN = "usr/share/mastdamson", "usr/share/doc/mastdamson", "usr/share/man/man1"
COMPLETIONS = "usr/share/bash-completion/completions"
PLUGIN = "usr/lib/x86_64-linux-gnu/wireshark/plugins/bier.lua"
FILES = os.path.join(places.TOOLS, "package", "files")


@dataclasses.dataclass(frozen=True)
class File:
    octets: bytes = b""
    is_executable: bool = False
    target: str | None = None  # of a symbolic link


@dataclasses.dataclass(frozen=True)
class Build:
    """What a package is made from."""

    version: str
    commit: str
    seconds: int  # the commit's time
    date: str
    maintainer: str
    kit: str
    gate: str


def crate_output(name):
    return os.path.join(places.ROOT, "crates", name, "out", name)


def command_names():
    return [f"mastdamson-{name}" for name in TOOLS]


def copied(path, is_executable=None):
    """A file of the repository; a script runs with Debian's Python."""
    octets = read_octets(path)
    if octets.startswith(b"#!/usr/bin/env python3\n"):
        octets = octets.replace(b"#!/usr/bin/env python3\n", b"#!/usr/bin/python3\n", 1)
    return File(octets, os.access(path, os.X_OK) if is_executable is None else is_executable)


def packed(text):
    return File(gzip.compress(text.encode(), 9, mtime=0))


def folder(path, target, skip=()):
    """All files under a folder of the repository."""
    found = {}
    for at in sorted(glob.glob(os.path.join(path, "**"), recursive=True)):
        name = os.path.relpath(at, path)
        if os.path.isfile(at) and "__pycache__" not in name and name not in skip:
            found[f"{target}/{name}"] = copied(at)
    return found


def programs():
    found = {target: copied(crate_output(name), True) for name, target in PROGRAMS.items()}
    front = File(target="../share/mastdamson/bier_domain")
    return {**found, "usr/bin/bier_domain": front, f"{SHARE}/bier_domain": copied(os.path.join(FILES, "bier_domain"), True)}


def tools():
    found = {}
    for name in TOOLS:
        found[f"{SHARE}/tools/{name}"] = copied(os.path.join(places.TOOLS, name), True)
        found[f"usr/bin/mastdamson-{name}"] = File(target=f"../share/mastdamson/tools/{name}")
    for part in ("common", "designs", "page", "independent"):
        found.update(folder(os.path.join(places.TOOLS, part), f"{SHARE}/tools/{part}", skip=("compare",)))
    found[PLUGIN] = copied(os.path.join(places.TOOLS, "wireshark", "bier.lua"), False)
    return found


def completions():
    found = {f"{COMPLETIONS}/{name}": File(target="bier_domain") for name in command_names()}
    for shell, target in (("bash", f"{COMPLETIONS}/bier_domain"), ("zsh", "usr/share/zsh/vendor-completions/_bier_domain")):
        octets = read_octets(os.path.join(FILES, f"completion.{shell}"))
        found[target] = File(octets.replace(b"@TOOLS@", " ".join(command_names()).encode()))
    return found


def documents(build):
    found = folder(os.path.join(places.ROOT, "docs"), f"{DOC}/docs")
    for name in ("README.md", "CHANGELOG.md"):
        found[f"{DOC}/{name}"] = copied(os.path.join(places.ROOT, name), False)
    # The tools read the examples, so that they stand outside of the documents.
    found.update(folder(os.path.join(places.ROOT, "examples"), f"{SHARE}/examples", skip=("first-look",)))
    found[f"{DOC}/examples"] = File(target="../../mastdamson/examples")
    found[f"{DOC}/copyright"] = copied(os.path.join(FILES, "copyright"), False)
    found["usr/share/lintian/overrides/mastdamson"] = copied(os.path.join(FILES, "overrides"), False)
    entry = f"  * Release {build.version}; CHANGELOG.md says what is new.\n\n -- {build.maintainer}  {build.date}\n"
    found[f"{DOC}/changelog.gz"] = packed(f"mastdamson ({build.version}) unstable; urgency=medium\n\n{entry}")
    return found


def written(files, root, seconds):
    """Writes the files below a folder, with the commit's time."""
    for path, it in sorted(files.items()):
        at = os.path.join(root, path)
        os.makedirs(os.path.dirname(at), exist_ok=True)
        if it.target is not None:
            os.symlink(it.target, at)
            continue
        with open(at, "wb") as file:
            file.write(it.octets)
        os.chmod(at, 0o755 if it.is_executable else 0o644)
    for at, folders, names in os.walk(root, topdown=False):
        for name in names:
            os.utime(os.path.join(at, name), (seconds, seconds), follow_symlinks=False)
        os.chmod(at, 0o755)
        os.utime(at, (seconds, seconds))


def help_of(root, name):
    """What an installed tool prints for --help, no line of it broken."""
    env = {"PATH": "/usr/bin:/bin", "COLUMNS": "4000", "PYTHONDONTWRITEBYTECODE": "1"}
    done = subprocess.run([os.path.join(root, "usr/bin", name), "--help"], env=env, capture_output=True, text=True)
    if done.returncode:
        raise Trouble(f"{name} --help: {done.stderr.strip()}")
    return done.stdout


def pages(build, root):
    """The man pages; those of the tools come from the tools below the folder."""
    guide, date = read_octets(os.path.join(places.ROOT, "docs", "user-guide.md")).decode(), build.date[5:16]
    made = {name: man.tool_page(name, help_of(root, name), build.version, date) for name in command_names()}
    made["bier_domain"] = man.program_page(guide, build.version, date, command_names())
    made["isis_dump"] = man.dump_page(guide, build.version, date)
    made["show_router"] = man.look_page(guide, build.version, date)
    made["live_router"] = man.live_page(guide, build.version, date)
    return {f"{MAN}/{name}.1.gz": packed(text) for name, text in made.items()}


def build_file(build, files):
    """What the package was made from, and the sum of each file."""
    given = dataclasses.asdict(build)
    lines = [f"{name} {given[name]}" for name in ("version", "commit", "date", "kit", "gate")] + [""]
    sums = [f"{hashlib.sha256(it.octets).hexdigest()}  {path}" for path, it in sorted(files.items()) if it.target is None]
    return File("\n".join([*lines, *sums, ""]).encode())


def needed_libc(octets):
    """The version of the C library that a program needs."""
    found = re.findall(rb"GLIBC_(\d+)\.(\d+)\0", octets)
    return max(((int(major), int(minor)) for major, minor in found), default=(2, 34))
