"""What runs the program and says on standard error what the program itself can't say.

That is: what is wrong with a rejected file or line, and where; which file could not be read or written; an example of each command
after a wrong command line. Where standard error is a terminal: warnings of a domain file (tools/lint), and how far a long run is.
The program's report and exit status are unchanged.
"""
import os
import select
import subprocess
import sys
import time

from .names import as_called
from .trouble import Trouble

# the arguments of each command: what each file is to the program
FORMS = {
    "replay": ("CONF", "SCHEDULE", "FRAMES"),
    "replay-ng": ("CONF", "SCHEDULE", "FRAMES"),
    "node": ("CONF", "ROUTER", "CAPTURE", "FRAMES"),
    "hop": ("INPUT",),
    "headers": ("CAPTURE",),
    "grow": ("N",),
    "topo": ("CAPTURE", "LEVEL", "MT", "FROM"),
    "handshake": ("CONF", "SCHEDULE", "FRAMES"),
    "check": ("CONF", "SCHEDULE", "FRAMES"),
}
READ, WRITTEN = ("CONF", "SCHEDULE", "CAPTURE", "INPUT"), ("FRAMES",)
NO_FILES = ("ROUTER", "N", "LEVEL", "MT", "FROM")
EXAMPLES = """each command with an example, from the folder examples/:
  bier_domain replay replay-ring/domain.toml replay-ring/schedule frames.pcap
  bier_domain check check-television/domain.toml check-television/schedule frames.pcap
  bier_domain handshake handshake-fibre/domain.toml handshake-fibre/schedule frames.pcap
  bier_domain hop hop-four-receivers/input.hop
  bier_domain node node-television/domain.toml west-4 node-television/capture.pcap frames.pcap
  bier_domain headers headers-of-a-capture/capture.pcap
  bier_domain topo topo-ipv6/capture.pcap 2 2 0000.0000.0001
  bier_domain grow 40"""


WRITE_FAULT = 6
MOST_WARNINGS = 5
TAIL = 1 << 16  # octets at the end of a report that have its last line


def say(text):
    print(f"bier_domain: {text}", file=sys.stderr, flush=True)


# ---- the files that the arguments name


def named(arguments):
    """The files that a command line names, each with what it is; none where the command line is unknown."""
    kinds = FORMS.get(arguments[0], ()) if arguments else ()
    if len(kinds) != len(arguments) - 1:
        return []
    return [(kind, path) for kind, path in zip(kinds, arguments[1:]) if kind not in NO_FILES]


def same_file(one, other):
    try:
        return os.path.samefile(one, other)
    except OSError:
        return os.path.abspath(one) == os.path.abspath(other)


def overwritten(files):
    """What would be read and written at once."""
    for written in [path for kind, path in files if kind in WRITTEN]:
        for kind, path in files:
            if kind in READ and same_file(path, written) and not (os.path.exists(path) and not os.path.isfile(path)):
                return f"FRAMES is the same file as {kind}, {path}: it would be overwritten, so nothing was done"
    return None


def fault_of(kind, path):
    """Why a file can't be read or written, as far as it can be determined now."""
    if os.path.isdir(path):
        return "is a folder"
    if kind in READ:
        if not os.path.lexists(path):
            return "doesn't exist"
        return None if os.access(path, os.R_OK) else "isn't readable"
    if not os.path.isdir(os.path.dirname(os.path.abspath(path))):
        return "is in a folder that doesn't exist"
    place = path if os.path.exists(path) else os.path.dirname(os.path.abspath(path))
    return None if os.access(place, os.W_OK) else "isn't writable"


def explain_files(status, files):
    """One line on why the program stopped, where only its exit status shows it."""
    kinds = READ if status == 5 else WRITTEN
    for kind, path in files:
        fault = fault_of(kind, path) if kind in kinds else None
        if fault:
            return say(f"{kind}, {path}, {fault}")
    if status == 5:
        return say("reading " + " or ".join(path for kind, path in files if kind in READ) + " failed")
    targets = [path for kind, path in files if kind in WRITTEN]
    say("writing " + " or ".join([*targets, "the report"]) + " failed: is the disk full, or was the reader of the report closed?")


def explain(status, arguments, files, last):
    """What is wrong, by the exit status and the report's last line."""
    if status == 7:
        say("out of memory")
    elif status in (5, WRITE_FAULT):
        explain_files(status, files)
    elif status in (3, 4, 8) and last.startswith("refused ") and sys.version_info >= (3, 11):
        text = rejected(status, arguments, dict(files), last.removeprefix("refused "))
        if text:
            say(text)


def rejected(status, arguments, files, refusal):
    """What is wrong with a rejected file or line; None where the file can't be read again."""
    from . import explain  # needs Python 3.11

    try:
        if status == 3 and refusal.endswith(" words[2]"):
            return f"{files['CONF']}: no [[router]] has the name {arguments[2]}"
        if status == 3:
            return explain.conf(files["CONF"], refusal.removeprefix("conf ")) if os.path.isfile(files["CONF"]) else None
        if status == 8:
            return explain.record(files["CAPTURE"], refusal.removeprefix("record "))
        return explain.line(files.get("SCHEDULE") or files["INPUT"], refusal)
    except Trouble as trouble:
        return str(trouble)


def warn(files):
    """The warnings of a domain file that is accepted."""
    path = dict(files).get("CONF")
    if not (path and os.path.isfile(path) and sys.stderr.isatty() and sys.version_info >= (3, 11)):
        return
    from . import lint

    try:
        found = lint.warnings(path)
    except Trouble:
        return  # the program rejects the file
    for text in found[:MOST_WARNINGS]:
        say(f"warning: {text}")
    if len(found) > MOST_WARNINGS:
        say(as_called(f"and {len(found) - MOST_WARNINGS} more warnings: tools/lint ") + path)


# ---- how far a run is


def offset(process, path):
    """How many octets of an open file the program has read or written."""
    try:
        for it in os.listdir(f"/proc/{process}/fd"):
            if os.path.realpath(f"/proc/{process}/fd/{it}") == os.path.realpath(path):
                with open(f"/proc/{process}/fdinfo/{it}", encoding="ascii") as file:
                    return int(file.readline().split()[1])
    except (OSError, ValueError, IndexError):
        pass
    return None


def how_far(process, files, started):
    parts = []
    for kind, path in files:
        at = offset(process, path)
        if at is None:
            continue
        if kind in READ:
            parts.append(f"{kind} {at:,} of {os.path.getsize(path):,} octets read")
        else:
            parts.append(f"{kind} {at:,} octets written")
    return "; ".join([*parts, f"{time.time() - started:.0f} s"])


def pass_on(chunk):
    """Writes a chunk of the report to standard output."""
    while chunk:
        chunk = chunk[os.write(1, chunk) :]


def run(program, arguments, files):
    """Runs the program, and passes its report on; its exit status and the report's last line."""
    started, shown, tail, failed = time.time(), False, b"", False
    is_terminal = sys.stderr.isatty()
    with subprocess.Popen([program, *arguments], stdout=subprocess.PIPE) as process:
        while True:
            ready, _, _ = select.select([process.stdout], [], [], 0.5 if shown else 2)
            chunk = os.read(process.stdout.fileno(), TAIL) if ready else None
            if chunk == b"":
                break
            if chunk is None and is_terminal:
                shown = True
                sys.stderr.write("\r\x1b[K" + how_far(process.pid, files, started))
                sys.stderr.flush()
            if chunk:
                tail = (tail + chunk)[-TAIL:]
                try:
                    pass_on(chunk)
                except OSError:
                    failed = True
                    process.stdout.close()  # so the program fails to write too, where it isn't done yet
                    break
    if shown:
        sys.stderr.write("\r\x1b[K")
    return WRITE_FAULT if failed else process.returncode, (tail.decode(errors="replace").splitlines() or [""])[-1]


def main(program, before=None):
    """Runs the program with the arguments of this process, after the step that is to be done before; the exit status."""
    arguments = sys.argv[1:]
    files = named(arguments)
    clash = overwritten(files)
    if clash:
        say(clash)
        return 2
    if before:
        before()
    warn(files)
    status, last = run(program, arguments, files)
    explain(status, arguments, files, last)
    if status == 2:
        print(as_called(EXAMPLES), file=sys.stderr)
    return status if status >= 0 else 128 - status


def end_with(program, before=None):
    """Ends this process as the program ends."""
    try:
        sys.exit(main(program, before))
    except KeyboardInterrupt:
        sys.exit(130)
