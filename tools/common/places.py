"""Where the program and the parts of the repository are."""
import os
import subprocess
import sys

from .trouble import Trouble

ROOT = os.path.dirname(os.path.dirname(os.path.dirname(os.path.abspath(__file__))))
TOOLS = os.path.join(ROOT, "tools")
IS_INSTALLED = not os.path.isdir(os.path.join(ROOT, "crates"))
if IS_INSTALLED:  # as share/mastdamson of some prefix
    PREFIX = os.path.dirname(os.path.dirname(ROOT))
    BUILT = os.path.join(PREFIX, "libexec", "mastdamson", "bier_domain")
    DUMP = os.path.join(PREFIX, "bin", "isis_dump")
    SHOW_ROUTER = os.path.join(PREFIX, "bin", "show_router")
    LIVE = os.path.join(PREFIX, "bin", "live_router")
else:
    BUILT = os.path.join(ROOT, "crates", "bier_domain", "out", "bier_domain")
    DUMP = os.path.join(ROOT, "crates", "isis_dump", "out", "isis_dump")
    SHOW_ROUTER = os.path.join(ROOT, "crates", "show_router", "out", "show_router")
    LIVE = os.path.join(ROOT, "crates", "live_router", "out", "live_router")

sys.path.insert(0, os.path.join(TOOLS, "independent"))


def program(given=None):
    """The program's path: the option, or BIER_DOMAIN, or the one that is installed, or what the script at the root has built.

    It is run once without arguments, so that many runs at once don't each begin to build.
    """
    path = given or os.environ.get("BIER_DOMAIN") or (BUILT if IS_INSTALLED else None)
    script = os.path.abspath(path or os.path.join(ROOT, "bier_domain"))
    try:
        done = subprocess.run([script], stdin=subprocess.DEVNULL, stdout=subprocess.PIPE, timeout=None if path is None else 60)
    except (OSError, subprocess.TimeoutExpired) as error:
        raise Trouble(f"{script}: {getattr(error, 'strerror', None) or 'no answer'}")
    if done.returncode != 2 or not done.stdout.startswith(b"usage"):
        raise Trouble(f"{script}: not the program: it prints no usage line")
    return script if path else BUILT


def built_program():
    """A program that is there without a build, for tests; None where there is none."""
    for path in (os.environ.get("BIER_DOMAIN"), BUILT):
        if path and os.access(path, os.X_OK):
            return os.path.abspath(path)
    return None
