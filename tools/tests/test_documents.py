"""The documents: what is made from the sources is current, links lead to files and headings, and the field's terms are used."""
import importlib.machinery
import importlib.util
import os
import re
import subprocess
import sys
import unittest

from support import places

LINK = re.compile(r"\]\(([^)#\s]+)(?:#[^)]*)?\)")
ANCHOR = re.compile(r"\]\(([^)#\s:]*)#([^)\s]+)\)")
# phrases in whose place the field has a term of its own (docs/glossary.md)
PHRASES = """want of memory; memory is refused; read fault; write fault; on its way; on their way; what is told; is told of; no form;
is dear; parted by; all is as it was; knows no BIER; fact of the code; edit that must be refused; edits that must be refused""".replace("\n", " ").split("; ")


def pages():
    found = [os.path.join(places.ROOT, name) for name in ("README.md", "CONTRIBUTING.md")]
    docs = os.path.join(places.ROOT, "docs")
    return found + [os.path.join(docs, name) for name in sorted(os.listdir(docs)) if name.endswith(".md")]


def read(path):
    with open(path, encoding="utf-8") as file:
        return file.read()


def headings(path):
    """The anchors of a page's headings."""
    lines = re.findall(r"^#+ (.*)$", read(path), re.M)
    return [re.sub(r"[^\w\- ]", "", line.lower()).strip().replace(" ", "-") for line in lines]


class Documents(unittest.TestCase):
    def test_what_is_made_from_the_sources_is_current(self):
        ran = subprocess.run([sys.executable, os.path.join(places.ROOT, "tools", "documents"), "--check"], capture_output=True, text=True)
        self.assertEqual((ran.returncode, ran.stdout), (0, ""))

    def test_a_law_has_its_own_clauses_alone(self):
        path = os.path.join(places.ROOT, "tools", "documents")
        loader = importlib.machinery.SourceFileLoader("documents", path)
        documents = importlib.util.module_from_spec(importlib.util.spec_from_loader("documents", loader))
        loader.exec_module(documents)
        lines = ["pub fn first()", "    ensures one { x }", "{}", "", "pub fn second()", "    ensures two { y }", "{}"]
        self.assertEqual(documents.clauses(lines, 0), ([], [("one", "x")]))

    def test_links_lead_to_files(self):
        for page in pages():
            for link in LINK.findall(read(page)):
                if not link.startswith(("http:", "https:")):
                    with self.subTest(page=os.path.basename(page), link=link):
                        self.assertTrue(os.path.exists(os.path.join(os.path.dirname(page), link)))

    def test_links_lead_to_headings(self):
        for page in pages():
            for link, anchor in ANCHOR.findall(read(page)):
                target = os.path.join(os.path.dirname(page), link) if link else page
                if target.endswith(".md") and os.path.exists(target):
                    with self.subTest(page=os.path.basename(page), link=link, anchor=anchor):
                        self.assertIn(anchor, headings(target))

    def test_the_fields_terms_are_used(self):
        for page in pages():
            text = " ".join(re.sub(r"`[^`]*`", "`", read(page)).split())
            for phrase in PHRASES:
                with self.subTest(page=os.path.basename(page), phrase=phrase):
                    self.assertFalse(phrase in text, phrase)


if __name__ == "__main__":
    unittest.main()
