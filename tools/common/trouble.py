"""How a tool ends that can't go on: with one line on standard error, and never a traceback."""
import os
import sys


class Trouble(Exception):
    """What is wrong, for the user."""


def run(main):
    """Runs a tool's main, and ends with its status; 1 where there was trouble."""
    try:
        sys.exit(main())
    except Trouble as trouble:
        print(f"{os.path.basename(sys.argv[0])}: {trouble}", file=sys.stderr)
        sys.exit(1)
    except BrokenPipeError:
        # Whoever read our output has seen enough, as `head` does.
        os.dup2(os.open(os.devnull, os.O_WRONLY), sys.stdout.fileno())
        sys.exit(1)
    except KeyboardInterrupt:
        sys.exit(130)
    except OSError as error:
        where = f"{error.filename}: " if error.filename else ""
        print(f"{os.path.basename(sys.argv[0])}: {where}{error.strerror}", file=sys.stderr)
        sys.exit(1)


def read_octets(path, start=0):
    try:
        with open(path, "rb") as file:
            if start:
                file.seek(start)
            return file.read()
    except OSError as error:
        raise Trouble(f"{path}: {error.strerror}")


def read_text(path):
    try:
        return read_octets(path).decode("utf-8")
    except UnicodeDecodeError:
        raise Trouble(f"{path}: not a text")


def write_octets(path, octets, inputs=()):
    """Writes a file, which must be none of the inputs."""
    for read in inputs:
        if os.path.exists(path) and os.path.samefile(path, read) and os.path.isfile(path):
            raise Trouble(f"{path}: is an input, and would be overwritten")
    try:
        with open(path, "wb") as file:
            file.write(octets)
    except OSError as error:
        raise Trouble(f"{path}: {error.strerror}")


def replace_octets(path, octets):
    """Writes a file completely or not at all, even where this process is stopped."""
    write_octets(path + ".new", octets)
    os.replace(path + ".new", path)
