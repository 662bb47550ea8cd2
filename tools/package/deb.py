"""The Debian package and the archive of a tree of files."""
import gzip
import hashlib
import io
import os
import shutil
import subprocess
import tarfile

from common.trouble import Trouble

from . import tree

DESCRIPTION = """Description: proved reference implementation of BIER multicast
 Mastdamson checks a BIER multicast design before it carries traffic: which
 receivers a packet reaches, over which links, what is lost while a fiber is
 cut and the routers learn of it, and why. It replays a domain over a schedule
 of events, and writes every frame as a capture that Wireshark opens and a
 report of what was delivered and dropped, with the cause.
 .
 The program is proved to write exactly the frames and the report of its
 model's run. The package has tools around it: pictures, a page that plays a
 replay, sweeps over many schedules, and a Wireshark dissector."""


def control(build, files):
    libc = max(tree.needed_libc(files[path].octets) for path in tree.PROGRAMS.values())
    size = sum(-(-len(it.octets) // 1024) if it.target is None else 1 for it in files.values())
    fields = {
        "Package": "mastdamson",
        "Version": build.version,
        "Architecture": "amd64",
        "Maintainer": build.maintainer,
        "Installed-Size": size,
        "Depends": f"libc6 (>= {libc[0]}.{libc[1]}), python3 (>= 3.11)",
        "Recommends": "graphviz, tshark",
        "Suggests": "bash-completion, gcc, parallel, wireshark",
        "Section": "net",
        "Priority": "optional",
    }
    return "".join(f"{name}: {value}\n" for name, value in fields.items()) + DESCRIPTION + "\n"


def control_files(build, files):
    """The files beside the tree in a package."""
    found = {"DEBIAN/control": tree.File(control(build, files).encode())}
    sums = [f"{hashlib.md5(it.octets).hexdigest()}  {path}\n" for path, it in sorted(files.items()) if it.target is None]
    found["DEBIAN/md5sums"] = tree.File("".join(sums).encode())
    for name in ("postinst", "prerm"):
        found[f"DEBIAN/{name}"] = tree.copied(os.path.join(tree.FILES, name), True)
    return found


def write_package(build, files, root, path):
    """Makes the package of the files, which are below the folder."""
    tree.written(control_files(build, files), root, build.seconds)
    words = ["dpkg-deb", "--root-owner-group", "-Zxz", "-z9", "--threads-max=1", "--build", root, path]
    env = {**os.environ, "SOURCE_DATE_EPOCH": str(build.seconds)}
    done = subprocess.run(words, env=env, capture_output=True, text=True)
    shutil.rmtree(os.path.join(root, "DEBIAN"))
    if done.returncode:
        raise Trouble(done.stderr.strip())


def folders_of(files):
    found = set()
    for path in files:
        while path := os.path.dirname(path):
            found.add(path)
    return found


def archive(build, files):
    """The same files as a compressed tar archive; the octets depend on nothing else."""
    top, out = f"mastdamson-{build.version}", io.BytesIO()
    with tarfile.open(fileobj=out, mode="w", format=tarfile.GNU_FORMAT) as archived:
        for path in sorted({"", *folders_of(files), *files}):
            it = files.get(path)
            entry = tarfile.TarInfo(f"{top}/{path}".rstrip("/"))
            entry.mtime, entry.uname, entry.gname = build.seconds, "root", "root"
            entry.mode = 0o755 if it is None or it.is_executable else 0o644
            if it is None:
                entry.type = tarfile.DIRTYPE
            elif it.target is not None:
                entry.type, entry.linkname, entry.mode = tarfile.SYMTYPE, it.target, 0o777
            else:
                entry.size = len(it.octets)
            archived.addfile(entry, io.BytesIO(it.octets) if it else None)
    return gzip.compress(out.getvalue(), 9, mtime=0)
