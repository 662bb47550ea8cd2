"""Limits of the built program: each packet of `grow` arrives at each router, whatever their number; and a run's events end."""
import os
import subprocess
import unittest

from support import EXAMPLES, places, scratch, write

# Every thirteenth number up to 250, and some around the border of one set of BFR-ids.
NUMBERS = [*range(3, 250, 13), 250, 256, 257, 300]


@unittest.skipUnless(places.built_program(), "the program isn't built (rt ci builds it)")
class Grow(unittest.TestCase):
    def test_all_arrive(self):
        for n in NUMBERS:
            done = subprocess.run([places.built_program(), "grow", str(n)], capture_output=True, text=True, timeout=120)
            wanted = f"grow {n} injected 16 named {16 * n} got {16 * n} dropped 0 flight 0\n"
            self.assertEqual((done.returncode, done.stdout), (0, wanted), n)

    def test_events_end(self):
        """A round of two routers at rest is two events; before, they receive ten frames."""
        pair = os.path.join(EXAMPLES, "pair", "domain.toml")
        words = [places.built_program(), "replay", pair, write("many.schedule", 8001 * "settle 1000\n"), scratch("many.frames")]
        done = subprocess.run(words, capture_output=True, text=True, timeout=120)
        self.assertEqual((done.returncode, done.stdout), (4, "refused 8000 event 1 Events\n"))


if __name__ == "__main__":
    unittest.main()
