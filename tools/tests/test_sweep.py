"""Sweeps: their counts, that they go on where they were stopped, and what they do with runs and machines that break."""
import fcntl
import glob
import json
import os
import signal
import stat
import subprocess
import time
import unittest
from unittest import mock

from support import EXAMPLES, needs, places, program, python_alone, scratch, tool, write
from common import spread

RING = os.path.join(EXAMPLES, "ring", "domain.toml")
RULE = ["--lose", "0,0.2", "--reorder", "0.5", "--repeat", "0.1", "--seeds", "2", "--packets", "2", "--mend"]
# Programs that break: on the schedule of each run the first time; of one run always; a report without one of its lines. And an ssh to machines that are this one, are dead,
# have nothing, or answer nothing.
AT_TIMES = """#!/bin/sh
[ "$3" = schedule ] || exec {program} "$@"
mark={mark}/$(head -n 1 schedule | cksum | tr " " -)
[ -e $mark ] || {{ touch $mark; exit 9; }}
exec {program} "$@"
"""
ALWAYS = """#!/bin/sh
[ "$3" = schedule ] || exec {program} "$@"
grep -q "Run 3:" schedule && {{ echo "refused 1 text 1 Word"; exit 4; }}
exec {program} "$@"
"""
WRONG = """#!/bin/sh
[ "$3" = schedule ] || exec {program} "$@"
{program} "$@" | sed "0,/^[0-9]* got /{{/^[0-9]* got /d}}"
"""
LATE = """#!/bin/sh
[ "$3" = /dev/stdin ] || exec {program} "$@"
cat > all
exec {program} replay domain.toml all "$4"
"""
SSH = """#!/bin/sh
while [ $# -gt 0 ]; do case $1 in -*) shift ;; *) host=$1; shift; break ;; esac; done
[ "$1" = -- ] && shift
case $host in
dead*) echo "no route to $host" >&2; exit 255 ;;
bare*) cat >/dev/null; echo "what is python3?"; exit 127 ;;
mute*) cat >/dev/null; exit 0 ;;
esac
exec sh -c "$*"
"""
RUNS = 5 * 2 * 2  # four links and none, two rates, two seeds


def swept(name, *words, env=None, using=None):
    return tool("sweep", RING, "--out", scratch(name), "--jobs", "2", "--program", using or program(), *RULE, *words, env=env)


def brief(name, *words):
    """A sweep of one seed without loss, unless other arguments are given."""
    return tool("sweep", RING, "--out", scratch(name), "--jobs", "2", "--program", program(), "--seeds", "1", *words)


def children_of(process):
    """The processes that a process has started, by /proc."""
    found = []
    for path in glob.glob(f"/proc/{process}/task/*/children"):
        with open(path) as file:
            found += [int(word) for word in file.read().split()]
    return found


def lines_of(name):
    with open(os.path.join(scratch(name), "results.jsonl")) as file:
        return [json.loads(line) for line in file]


def table_of(name):
    with open(os.path.join(scratch(name), "table.txt")) as file:
        return file.read()


def script(name, text):
    path = write(name, text)
    os.chmod(path, os.stat(path).st_mode | stat.S_IXUSR)
    return path


class Sweep(unittest.TestCase):
    @classmethod
    def setUpClass(cls):
        cls.done = swept("whole")
        cls.table = table_of("whole")

    def test_counts(self):
        self.assertEqual(self.done.returncode, 0, self.done.stderr)
        self.assertEqual(self.done.stdout, self.table)
        self.assertTrue(self.table.startswith(f"{RUNS} of {RUNS} runs, 0 broken\n"))
        self.assertIn(f"{RUNS} of {RUNS} runs", self.done.stderr)  # progress
        head, *rows = [line.split() for line in self.table.splitlines()[2:8]]
        self.assertEqual(head[:5], ["egress", "BFR-id", "named", "delivered", "share"])
        # Without failures a run has four packets for all; each link that fails and comes up again has four more.
        named = 4 * (RUNS // 5) + 8 * (RUNS - RUNS // 5)
        self.assertEqual([row[:3] for row in rows[:4]], [[name, str(place), str(named)] for place, name in enumerate("ABCD", 1)])
        for row in rows[:4]:
            self.assertEqual(int(row[2]), sum(map(int, row[3:4] + row[5:])))

    def test_no_loss(self):
        """Where nothing fails and nothing is lost, all is delivered."""
        self.assertEqual(
            tool(
                "sweep", RING, "--out", scratch("rest"), "--fail", "none", "--seeds", "2", "--jobs", "1", "--program", program()
            ).returncode,
            0,
        )
        self.assertIn("all", table_of("rest").splitlines()[7])
        _, named, delivered, share = table_of("rest").splitlines()[7].split()
        self.assertEqual((named, share), (delivered, "100.00%"))

    def test_unseen(self):
        """Before the ends of a link notice that it is cut, packets over it are lost; where they know at once, the cause is `link`."""
        for many in (0, 3):
            name, lossy = f"unseen-{many}", set()
            done = brief(name, "--unseen", str(many), "--seeds", "4")
            self.assertEqual(done.returncode, 0, done.stderr)
            for result in lines_of(name):
                if any(count.get("lost") for count in result["fates"].values()):
                    lossy.add(result["run"] % 5)
            self.assertEqual(lossy, {1, 2, 3, 4} if many else set())

    def test_receivers(self):
        self.assertEqual(brief("to", "--fail", "none", "--to", "B", "--to", "D").returncode, 0)
        self.assertEqual(sorted(lines_of("to")[0]["fates"]), ["2", "4"])

    def test_routers_and_groups(self):
        """A router that fails takes its links with it and gets no more packets; a group's links fail together."""
        self.assertEqual(brief("routers", "--fail", "routers", "--from", "A").returncode, 0)
        self.assertEqual({row.split()[1] for row in table_of("routers").splitlines() if row.startswith("router ")}, set("BCD"))
        self.assertEqual(brief("groups", "--group", "A/B,C/D", "--group", "B/C").returncode, 0)
        self.assertRegex(table_of("groups"), r"(?m)^A-B\+C-D +\d")
        fates = {result["run"]: result["fates"] for result in lines_of("groups")}
        self.assertEqual(len(fates), 3)

    def test_a_length_that_is_not_supported(self):
        done = brief("length", "--bsl", "512")
        self.assertEqual(done.returncode, 1)
        self.assertIn("--bsl 512: not supported in sub-domain 0 by A, B, C, D", done.stderr)

    def test_stopped(self):
        """A signal ends the workers at once; the table has what was done, and a line tells how to continue."""
        for number in (signal.SIGTERM, signal.SIGINT):
            name = f"signal-{number}"
            words = [os.path.join(places.TOOLS, "sweep"), RING, "--out", scratch(name), "--jobs", "2", "--program", program()]
            running = subprocess.Popen(
                [*words, "--seeds", "1000"], stdout=subprocess.PIPE, stderr=subprocess.PIPE, text=True, start_new_session=True
            )
            results, began = os.path.join(scratch(name), "results.jsonl"), time.monotonic()
            while time.monotonic() - began < 60 and not (os.path.exists(results) and os.path.getsize(results) > 600):
                time.sleep(0.05)
            workers = children_of(running.pid)
            running.send_signal(number)
            began = time.monotonic()
            out, err = running.communicate(timeout=30)
            self.assertLess(time.monotonic() - began, 10)
            self.assertEqual(running.returncode, 128 + number, err)
            self.assertEqual(len(workers), 2)
            self.assertFalse([worker for worker in workers if os.path.exists(f"/proc/{worker}")])
            self.assertIn("of 5000 runs are kept in", err)
            self.assertIn("the same arguments continue", err)
            self.assertEqual(out, table_of(name))
            self.assertRegex(out, r"^\d+ of 5000 runs, 0 broken")

    def test_time_left(self):
        """The speed is that of the last minute, without the time before the first result."""
        shown, clock = [], iter([0, 100, 101, 102, 103, 104])
        with mock.patch.object(spread.time, "monotonic", lambda: next(clock)), mock.patch.object(
            spread, "print", lambda text, **_: shown.append(text), create=True
        ):
            progress = spread.Progress(0, 10)
            for _ in range(5):
                progress.step(True)
            progress.show()
        self.assertEqual(shown[0], "1 of 10 runs")
        self.assertTrue(shown[-1].strip("\r\x1b[K").startswith("5 of 10 runs, 1.0 a second, 5 s left"), shown)

    def test_worst_runs(self):
        """The kept schedules reproduce what was counted, and the player accepts them."""
        counted = {
            result["run"]: sum(count["named"] - count.get("got", 0) for count in result["fates"].values())
            for result in lines_of("whole")
        }
        folder = os.path.join(scratch("whole"), "worst")
        kept = sorted(os.listdir(folder))
        self.assertTrue(1 <= len(kept) <= 5)
        for name in kept:
            rank, run = int(name.split("-")[0]), int(name.split("-")[2])
            files = [os.path.join(folder, name, part) for part in ("domain.toml", "schedule", "report", "frames")]
            with open(files[2]) as file:
                words = file.read().splitlines()[-1].split()
            self.assertEqual(int(words[6]) - int(words[8]), counted[run])
            self.assertEqual(sorted(counted.values(), reverse=True)[rank - 1], counted[run])
            self.assertEqual(tool("player", *files, "-o", scratch("worst.html")).returncode, 0)

    def test_plot(self):
        with open(os.path.join(scratch("whole"), "plot.svg")) as file:
            plot = file.read()
        for name in ("A (1)", "B (2)", "C (3)", "D (4)", "delivered"):
            self.assertIn(f">{name}<", plot)

    def test_goes_on(self):
        """Stopped by force, with half a line written: the rest is done, each run once, and the table is the same."""
        words = [
            os.path.join(places.TOOLS, "sweep"),
            RING,
            "--out",
            scratch("stopped"),
            "--jobs",
            "1",
            "--program",
            program(),
            *RULE,
        ]
        running = subprocess.Popen(words, stdout=subprocess.DEVNULL, stderr=subprocess.DEVNULL, start_new_session=True)
        results, began = os.path.join(scratch("stopped"), "results.jsonl"), time.monotonic()
        while running.poll() is None and time.monotonic() - began < 60:
            if os.path.exists(results) and os.path.getsize(results) > 600:
                break
            time.sleep(0.05)
        os.killpg(running.pid, signal.SIGKILL)
        running.wait()
        with open(results, "a") as file:
            file.write('{"run": 7, "ho')
        self.assertEqual(swept("stopped").returncode, 0)
        self.assertEqual(sorted(result["run"] for result in lines_of("stopped")), list(range(RUNS)))
        self.assertEqual(table_of("stopped"), self.table)
        again = swept("stopped")
        self.assertIn(f"{RUNS} runs, {RUNS} done before", again.stderr)
        self.assertEqual(table_of("stopped"), self.table)

    def test_two_at_once(self):
        with open(os.path.join(scratch("whole"), "lock")) as lock:
            fcntl.flock(lock, fcntl.LOCK_EX)
            done = swept("whole")
        self.assertEqual(done.returncode, 1)
        self.assertIn("another sweep is running there", done.stderr)

    def test_another_rule(self):
        done = tool("sweep", RING, "--out", scratch("whole"), "--seeds", "1", "--program", program())
        self.assertEqual(done.returncode, 1)
        self.assertIn("another domain or rule", done.stderr)

    def test_a_program_that_breaks_at_times(self):
        """Each run breaks the first time: it is named and tried again, and counted once."""
        mark = scratch("marks")
        os.makedirs(mark, exist_ok=True)
        text = AT_TIMES.format(mark=mark, program=program())
        done = swept("at-times", using=script("at-times.sh", text))
        self.assertEqual(done.returncode, 0, done.stderr)
        self.assertIn("run 3 broke on", done.stderr)
        self.assertIn("try 2 of 3", done.stderr)
        self.assertEqual(table_of("at-times"), self.table)

    def test_a_run_that_always_breaks(self):
        """A schedule that is rejected is named once, and not tried again."""
        done = swept("always", using=script("always.sh", ALWAYS.format(program=program())))
        self.assertEqual(done.stderr.count("run 3 broke on"), 1)
        self.assertNotIn("try 2", done.stderr)
        self.assertEqual(done.returncode, 1)
        self.assertIn(f"{RUNS - 1} of {RUNS} runs, 1 broken", done.stdout)
        self.assertIn("run 3 broke: status 4, refused 1 text 1 Word", done.stdout)

    def test_a_program_that_answers_late(self):
        done = swept("late", "--limit", "2", using=script("late.sh", LATE.format(program=program())))
        self.assertEqual(done.returncode, 1)
        self.assertIn("doesn't answer a line of a schedule from a pipe", done.stderr)

    def test_a_report_that_doesn_t_add_up(self):
        using = script("wrong.sh", WRONG.format(program=program()))
        done = swept("wrong", "--tries", "1", "--fail", "none", using=using)
        self.assertEqual(done.returncode, 1)
        self.assertIn("its lines and its last line differ in got", done.stdout)

    @needs("parallel", "parallel")
    def test_machines(self):
        """Over this machine, one more that answers, and three that are dead, lack the program and stay silent: their runs go to the others."""
        hosts = write("hosts", "# machines\n:\nalive\ndead\nbare\nmute\n")
        done = swept("machines", "--hosts", hosts, env={"PARALLEL_SSH": script("ssh.sh", SSH)})
        self.assertEqual(done.returncode, 0, done.stderr)
        for host in ("dead", "bare", "mute"):
            self.assertIn(f"machine {host}", done.stderr)
        self.assertEqual(sorted(result["run"] for result in lines_of("machines")), list(range(RUNS)))
        self.assertEqual(table_of("machines"), self.table)

    def test_without_parallel(self):
        # The independent program is run by its first line, which needs only python3.
        done = swept("no-parallel", "--hosts", write("hosts", ":\n"), env={"PATH": python_alone()})
        self.assertEqual(done.returncode, 1)
        self.assertIn("GNU parallel isn't installed", done.stderr)


if __name__ == "__main__":
    unittest.main()
