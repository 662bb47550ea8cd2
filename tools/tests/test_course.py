"""The course of a replay, read from its schedule, report and capture, and the trees of its packets."""
import os
import random
import unittest

from support import EXAMPLES, REPLAYS, UNMOVED, read, replayed, write
from common import capture, course, domain, frames, texts, tree
from common.domain import independent
from common.trouble import Trouble


def parts(name):
    it = replayed(name)
    return (
        domain.read_domain(it.domain),
        texts.read_schedule(it.schedule),
        texts.read_report(it.report),
        capture.read_capture(it.frames),
    )


def ring(chance, count, plain):
    """Routers r0, r1, .. in a ring, r0 with BFR-id 1 and so on, some without BIER, and the last link the worst."""
    systems = chance.sample(range(10, 100), count)
    text = '[[subdomain]]\nsd = 0\nkind = "mpls"\n'
    for place, system in enumerate(systems):
        text += f'[[router]]\nname = "r{place}"\nsystem = "0000.0000.00{system}"\nprefix = "10.0.0.{place + 1}"\n'
    for place in set(range(count)) - plain:
        text += f'[[bier]]\nrouter = "r{place}"\nsd = 0\nid = {place + 1}\n'
        text += f'[[labels]]\nrouter = "r{place}"\nsd = 0\nbsl = 64\nmax_si = 0\nlabel = {100 * place + 100}\n'
    for place in range(count):
        metric = 10 if place < count - 1 else 100
        ends = f'a = "r{place}"\nb = "r{(place + 1) % count}"'
        text += f"[[link]]\n{ends}\nmetric_ab = {metric}\nmetric_ba = {metric}\n"
    return text


def replay_of(text, schedule, run=independent.Replay):
    """The parts of a replay by the independent program, and that program's world at its end."""
    confs = independent.read_domain(text.encode())
    world = run(confs)
    world.run(schedule.encode().splitlines(keepends=True))
    report = texts.report_of("report", "".join(line + "\n" for line in world.report))
    records = capture.read_capture(write("course.pcap", bytes(world.cap)))
    return (domain.Domain(confs), schedule.splitlines(), report, records), world


def accepted(world, lines):
    """The lines that a run of the independent program accepts."""
    found = []
    for line in lines:
        try:
            world.do(world.parse(line.encode().split(b" ")), 1)
            found.append(line)
        except independent.Refused:
            pass
    return found


class TheCourse(unittest.TestCase):
    def same(self, text, schedule, run=independent.Replay):
        """The course of a replay ends with what the independent program has in flight; its report."""
        found, world = replay_of(text, schedule, run)
        path = course.Course(*found)
        for way, queue in path.queues.items():
            self.assertEqual([item.record.octets for item in queue], [octets for octets, _ in world.q[way]])
        if isinstance(world, course.independent_hellos.Handshake):
            self.assertEqual(path.has_hellos, any(word in schedule for word in ("settle", "hello", "break")))
            for way, queue in path.hellos.items():
                self.assertEqual([item.record.octets for item in queue], world.hellos[way])
        return found[2]

    def test_a_micro_loop(self):
        """A packet that visits r3 twice in one line, and is dropped at its second visit or later."""
        cut = "settle 30\ndown r4 r5\ndown r5 r4\n"
        for plain in (set(), {1, 3}):
            text = ring(random.Random(1), 6, plain)
            causes = set()
            for ttl in range(1, 12):
                for told in self.same(text, f"{cut}inject r0 0 64 6 {ttl} 0 00\nsettle 30\n").told:
                    causes.add(told.cause or "got")
            self.assertEqual(causes, {"ttl", "got"})

    def test_loops_at_random(self):
        """Packets that are alike, over links that go down and come up, some of them in tunnels."""
        chance = random.Random(7)
        for _ in range(40):
            count = chance.randint(4, 9)
            plain, down = {place for place in range(1, count) if chance.random() < 0.25}, set()
            lines = ["settle 30"]
            for _ in range(chance.randint(3, 20)):
                a = chance.randrange(count)
                end = (a, (a + chance.choice((1, -1))) % count)
                kind = chance.choice(("end", "inject", "inject", "settle"))
                if kind == "end":
                    lines.append(f"{'up' if end in down else 'down'} r{end[0]} r{end[1]}")
                    down ^= {end}
                elif kind == "inject":
                    ingress = chance.choice(sorted(set(range(count)) - plain))
                    ids = ",".join(map(str, sorted(chance.sample(range(1, count + 2), 3))))
                    lines.append(f"inject r{ingress} 0 64 {ids} {chance.choice((2, 5, 8, 64))} {chance.choice((0, 1))} 00")
                else:
                    lines.append(f"settle {chance.choice((1, 2, 3, 30))}")
            self.same(ring(chance, count, plain), "\n".join([*lines, "settle 30"]) + "\n")

    def test_hellos_at_random(self):
        """Hellos that arrive, are lost and overtake each other, circuits that break, and holding times that end."""
        chance, seen = random.Random(3), set()
        for _ in range(40):
            count = chance.randint(3, 6)
            lines = []
            for _ in range(chance.randint(3, 40)):
                a = chance.randrange(count)
                end = f"r{a} r{(a + chance.choice((1, -1))) % count}"
                ids = ",".join(map(str, sorted(chance.sample(range(1, count + 1), 2))))
                inject = f"inject r0 0 64 {ids} 8 0 00"
                lines += chance.choice((
                    [f"settle {chance.choice((1, 2, 9))}"], [inject], [f"hello {end}"] * 2, [f"hello {end}", f"forget {end} 0"],
                    [f"greet {end} {chance.choice((0, 0, 1))}"], [f"break {end}"], [f"mend {end}"], [f"tick r{a}"] * 30,
                    [f"restart r{a}"], [f"lose {end} 0"],
                ))
            text, run = ring(chance, count, set()), course.independent_hellos.Handshake
            lines = accepted(run(independent.read_domain(text.encode())), lines) + chance.choice(([], ["settle 2"], ["up r0 r1"]))
            seen |= {told.kind for told in self.same(text, "\n".join(lines) + "\n", run).told}
        self.assertEqual(seen, {"up", "down", "got", "drop"})

    def test_answers(self):
        """What `quiet` and `cover` answer belongs to its line, also after a cut and in a run that ends with a rejected line."""
        cut = "quiet\nsettle 9\nquiet\ncover r0 0 64 1,2,5 8 0\ndown r0 r1\nquiet\ndown r1 r0\nsettle 9\ncover r0 0 64 3,4 2 0\n"
        report = self.same(ring(random.Random(1), 5, {1}), f"{cut}cover r0 0 64 0 2 0\n", course.independent_quiet.Check)
        texts_of = [told.text.split(" ", 2)[1:] for told in report.told]
        self.assertEqual([kind for kind, _ in texts_of], ["quiet", "quiet", "cover", "quiet", "cover"])
        self.assertEqual([text for _, text in texts_of[1:]], ["yes", "1,5", "no half r0 r1", "4"])
        self.assertEqual(report.end, "refused 10 event 7 Edge 2 IdZero")

    def test_no_lines(self):
        empty, _ = replay_of(ring(random.Random(1), 4, set()), "")
        self.assertEqual(course.Course(*empty).steps, [])
        it, _, report, records = parts("replay-ring")
        with self.assertRaises(Trouble):
            course.Course(it, [], report, records)

    def test_examples(self):
        """Each frame is sent by its line, ends at most once, and each line of the report belongs to its line."""
        for name in REPLAYS:
            with self.subTest(name):
                it, schedule, report, records = parts(name)
                path = course.Course(it, schedule, report, records)
                sent = [item.record.number for step in path.steps for item in step.sent]
                self.assertEqual(sent, list(range(1, len(records) + 1)))
                self.assertEqual([told.text for step in path.steps for told in step.told], [told.text for told in report.told])
                if report.is_done:
                    on_the_way = sum(len(item.ids) for queue in path.queues.values() for item in queue)
                    self.assertEqual(on_the_way, report.numbers()["flight"])
                    self.assertEqual(len(path.injected), report.numbers()["injected"])

    def test_stored_reports(self):
        """The stored reports and captures of the examples are of one replay."""
        for name in REPLAYS:
            folder = os.path.join(EXAMPLES, name)
            if os.path.exists(os.path.join(folder, "frames")):
                with self.subTest(name):
                    it = domain.read_domain(os.path.join(folder, "domain.toml"))
                    report, schedule = texts.read_report(os.path.join(folder, "report")), texts.read_schedule(
                        os.path.join(folder, "schedule")
                    )
                    course.Course(it, schedule, report, capture.read_capture(os.path.join(folder, "frames")))

    def test_texts_that_don_t_belong_together(self):
        it, schedule, report, records = parts("replay-ring")
        changed = bytearray(records[70].octets)
        changed[-1] ^= 1
        for wrong in (
            (it, schedule[:-1], report, records),
            (it, schedule, report, records[:-1]),
            (it, schedule, report, records + records[-1:]),
            (it, schedule, report, records[:10] + records[11:]),
            (parts("replay-pair")[0], schedule, report, records),
            (it, schedule, texts.Report(report.told[:-1], report.end), records),
        ):
            with self.assertRaises(Trouble):
                course.Course(*wrong)

    def test_other_hellos_and_answers(self):
        """A hello that isn't the one that was sent, an interface or an answer that the report has otherwise."""
        it, schedule, report, records = parts("handshake-fibre")
        other = capture.Record(1, records[0].second, records[0].octets[:-1] + b"\x09")
        fewer = texts.Report([told for told in report.told if told.text != "59 down site-1 hub-1"], report.end)
        checked = parts("check-television")
        changed = texts.report_of("report", read(replayed("check-television").report).replace("cover 4,7,8", "cover 4,8"))
        for wrong in (
            (it, schedule, report, [other, *records[1:]]),
            (it, schedule, fewer, records),
            (it, [line.replace("break", "#") for line in schedule], report, records),
            (*checked[:2], changed, checked[3]),
        ):
            with self.assertRaises(Trouble):
                course.Course(*wrong)

    def test_trees(self):
        """With and without the schedule the same links carry the same copies."""
        for name in UNMOVED:
            it, schedule, report, records = parts(name)
            for number in course.Course(it, schedule, report, records).injected:
                with self.subTest(name=name, number=number):
                    known = tree.tree_by_schedule(it, schedule, report, records, number)
                    found = tree.tree_by_frames(it, report, records, number)
                    spots = lambda way: sorted((hop.line, hop.a, hop.b, hop.ids, hop.ttl) for hop in way.hops)
                    self.assertEqual((found.ingress, spots(found)), (known.ingress, spots(known)))

    def test_header_lines(self):
        """The tools' own reader of headers, against the stored report of the example."""
        folder = os.path.join(EXAMPLES, "headers-of-a-capture")
        with open(os.path.join(folder, "report")) as file:
            wanted = file.read().splitlines()[:-1]
        found = [
            (record.number, frames.header_line(record.octets))
            for record in capture.read_capture(os.path.join(folder, "capture.pcap"))
        ]
        self.assertEqual([f"{number} {line}" for number, line in found if line], wanted)


if __name__ == "__main__":
    unittest.main()
