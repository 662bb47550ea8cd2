"""docs/library.md quotes code and texts of the crates unchanged."""
import os
import re
import unittest

from support import places

PAGE = os.path.join(places.ROOT, "docs", "library.md")
QUOTE = re.compile(r"^In `([^`]+)`:\n\n```rust\n(.*?)^```$", re.MULTILINE | re.DOTALL)
BLOCK = re.compile(r"^```rust$", re.MULTILINE)
OUTPUT = re.compile(r"^```text\n(.*?)^```$", re.MULTILINE | re.DOTALL)


def read(*path):
    with open(os.path.join(places.ROOT, *path), encoding="utf-8") as file:
        return file.read()


class LibraryPage(unittest.TestCase):
    def test_its_code_is_the_crates_code(self):
        page = read(PAGE)
        quotes = QUOTE.findall(page)
        self.assertEqual(len(quotes), len(BLOCK.findall(page)), "a block of code names no file")
        self.assertGreater(len(quotes), 3)
        for path, code in quotes:
            source = "\n" + read(path)
            # Each function is quoted completely; what is between them in the file may be left out.
            for part in code.rstrip("\n").split("\n\n"):
                with self.subTest(file=path, code=part.splitlines()[0]):
                    self.assertIn("\n" + part + "\n", source)

    def test_its_outputs_are_the_stored_ones(self):
        stored = [read("crates", name, "stdout") for name in ("show_library", "isis_dump")]
        for text in OUTPUT.findall(read(PAGE)):
            lines = [line for line in text.splitlines() if line != "..." and not line.startswith("$ ")]
            self.assertTrue(any("\n".join(lines) + "\n" in out for out in stored), text)


if __name__ == "__main__":
    unittest.main()
