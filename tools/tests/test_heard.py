"""What one router received in a replay of the television example, and what the independent program's `node` makes of it."""
import subprocess
import unittest

from support import INDEPENDENT, replayed, scratch, tool
from common import capture, frames

DELIVERED = "37 got 0 7 1 474001\n38 got 0 7 1 474002\n39 got 0 7 1 474003\n63 got 0 7 1 474005\n"


class Heard(unittest.TestCase):
    def test_television(self):
        """west-4 delivers four packets, also where the first LSP of the archive is damaged on one of its links."""
        it, out = replayed("replay-television"), scratch("heard.pcap")
        for damage, dropped in (([], 0), (["--damage", "9"], 1)):
            done = tool("heard", it.domain, "west-4", it.frames, out, *damage)
            self.assertEqual((done.returncode, done.stdout), (0, "63 frames came on links of west-4\n"), done.stderr)
            words = [INDEPENDENT, "node", it.domain, "west-4", out, scratch("sent.pcap")]
            report = subprocess.run(words, capture_output=True, text=True).stdout
            last = f"done records 63 used 63 passed 0 got 4 dropped {dropped} sent 11\n"
            self.assertEqual(report, "9 drop pdu-7 -\n" * dropped + DELIVERED + last)

    def test_hellos(self):
        """Hellos are among what a router received; `node` skips them, and the others are LSPs, CSNPs and PSNPs of neighbors."""
        it, out = replayed("handshake-fibre"), scratch("heard-hellos.pcap")
        done = tool("heard", it.domain, "site-2", it.frames, out)
        self.assertEqual(done.returncode, 0, done.stderr)
        records = capture.read_capture(out)
        hellos = sum(frames.is_hello(record.octets) for record in records)
        self.assertEqual(done.stdout, f"{len(records)} frames came on links of site-2\n")
        words = [INDEPENDENT, "node", it.domain, "site-2", out, scratch("sent.pcap")]
        last = subprocess.run(words, capture_output=True, text=True).stdout.splitlines()[-1]
        self.assertGreater(hellos, 0)
        self.assertTrue(last.startswith(f"done records {len(records)} used {len(records) - hellos} passed {hellos} got 3 "), last)


if __name__ == "__main__":
    unittest.main()
