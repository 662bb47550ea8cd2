"""The package: reproducible octets, what is in it, and the man pages."""
import gzip
import hashlib
import io
import os
import re
import subprocess
import tarfile
import tempfile
import unittest

from support import needs, places, read
from common import front, names
from common.trouble import read_octets
from package import deb, man, tree

BUILD = tree.Build("1.2.3", "c0ffee", 1_700_000_000, "Tue, 14 Nov 2023 22:13:20 -0000", "A <a@example.org>", "kit", "all passed")
GUIDE = read(os.path.join(places.ROOT, "docs", "user-guide.md"))
PROGRAM = b"\x7fELF GLIBC_2.9\0GLIBC_2.34\0"


def made_tree():
    """The files of a package whose programs are a stand-in, as one has none before all is proved."""
    files = {**tree.tools(), **tree.completions(), **tree.documents(BUILD)}
    return {**files, **{path: tree.File(PROGRAM, True) for path in tree.PROGRAMS.values()}}


def sections_of(page):
    return re.findall(r'^\.SH "?([^"\n]+)', page, re.M)


class Release(unittest.TestCase):
    def test_the_archive_is_reproducible(self):
        first, second = (deb.archive(BUILD, made_tree()) for _ in range(2))
        self.assertEqual(first, second)
        with tarfile.open(fileobj=io.BytesIO(first)) as held:
            for it in held:
                self.assertEqual((it.uname, it.uid, it.gid, it.mtime), ("root", 0, 0, BUILD.seconds))
            names = held.getnames()
        self.assertEqual(names, sorted(names))

    @needs("dpkg-deb", "dpkg")
    def test_the_package_is_reproducible(self):
        sums = []
        for _ in range(2):
            with tempfile.TemporaryDirectory() as work:
                root, path, files = os.path.join(work, "root"), os.path.join(work, "it.deb"), made_tree()
                tree.written(files, root, BUILD.seconds)
                deb.write_package(BUILD, files, root, path)
                sums.append(hashlib.sha256(read_octets(path)).hexdigest())
                shown = subprocess.run(["dpkg-deb", "--contents", path], capture_output=True, text=True, check=True).stdout
        self.assertEqual(sums[0], sums[1])
        self.assertEqual({line.split()[1] for line in shown.splitlines()}, {"root/root"})

    def test_links_lead_to_files(self):
        files = made_tree()
        folders = deb.folders_of(files)
        files[f"{tree.SHARE}/bier_domain"] = files["usr/bin/bier_domain"] = tree.File()
        for path, it in files.items():
            if it.target is not None:
                target = os.path.normpath(os.path.join(os.path.dirname(path), it.target))
                self.assertTrue(target in files or target in folders, path)

    def test_the_modules_of_the_tools_are_there(self):
        files = made_tree()
        for name in os.listdir(os.path.join(places.TOOLS, "common")):
            if name.endswith(".py"):
                self.assertIn(f"{tree.SHARE}/tools/common/{name}", files)
        self.assertFalse([path for path in files if "__pycache__" in path or path.endswith(".pyc")])

    def test_what_is_executable_is_a_program_or_a_script(self):
        for path, it in made_tree().items():
            if it.is_executable:
                self.assertIn(it.octets[:2], (b"#!", b"\x7fE"), path)

    def test_the_control_file(self):
        text = deb.control(BUILD, made_tree())
        self.assertIn("\nDepends: libc6 (>= 2.34), python3 (>= 3.11)\n", text)

    def test_sums(self):
        text = tree.build_file(BUILD, made_tree()).octets.decode()
        self.assertTrue(text.startswith("version 1.2.3\ncommit c0ffee\n"))
        self.assertIn(f"{hashlib.sha256(PROGRAM).hexdigest()}  usr/bin/isis_dump\n", text)

    def test_each_tool_of_the_guide_is_in_the_package(self):
        named = set(re.findall(r"^### `tools/([a-z-]+)`", GUIDE, re.M))
        self.assertEqual(named, {*tree.TOOLS, "check"})  # which is about the repository


class ManPages(unittest.TestCase):
    def test_sections_of_the_program(self):
        found = sections_of(man.program_page(GUIDE, "1.2.3", "14 Nov 2023", tree.command_names()))
        firsts = [name.split(":")[0] for name in found]
        commands = ["REPLAY", "HANDSHAKE", "CHECK", "NODE", "GROW", "HOP", "HEADERS", "TOPO"]
        wanted = ["NAME", "SYNOPSIS", "DESCRIPTION", *commands, "THE DOMAIN FILE"]
        self.assertEqual(firsts, [*wanted, "EXIT STATUS", "FILES", "EXAMPLES", "SEE ALSO"])
        # replay-ng is a part of the section on replay
        self.assertEqual({name.lower() for name in commands} | {"replay-ng"}, set(front.FORMS))

    def test_sections_of_a_tool(self):
        for name in tree.TOOLS:
            done = subprocess.run(
                [os.path.join(places.TOOLS, name), "--help"], env={**os.environ, "COLUMNS": "4000"}, capture_output=True, text=True
            )
            page = man.tool_page(name, done.stdout, "1.2.3", "14 Nov 2023")
            with self.subTest(name):
                self.assertEqual(sections_of(page)[:3], ["NAME", "SYNOPSIS", "DESCRIPTION"])
                self.assertIn("OPTIONS", sections_of(page))
                self.assertFalse([it for it in sections_of(page) if it != it.upper()])

    @needs("man", "man-db")
    def test_pages_are_right_for_groff(self):
        given = (GUIDE, "1.2.3", "14 Nov 2023")
        beside = (man.dump_page(*given), man.live_page(*given), man.look_page(*given))
        for page in (man.program_page(*given, tree.command_names()), *beside):
            done = subprocess.run(
                ["man", "--warnings", "--local-file", "-"],
                input=page,
                env={**os.environ, "LC_ALL": "C.UTF-8", "MANWIDTH": "80", "MANROFFSEQ": "", "PAGER": "cat"},
                capture_output=True,
                text=True,
            )
            self.assertEqual((done.returncode, done.stderr), (0, ""))

    def test_installed_names(self):
        for text, wanted in (
            ("../../tools/picture x", "mastdamson-picture x"),
            ("tools/wireshark/bier.lua", f"/{tree.PLUGIN}"),
            ("$ ../../bier_domain replay", "$ bier_domain replay"),
            ("./bier_domain grow 40", "bier_domain grow 40"),
            ("examples/ring", "/usr/share/doc/mastdamson/examples/ring"),
        ):
            self.assertEqual(names.installed(text), wanted)


if __name__ == "__main__":
    unittest.main()
