"""Spreads the runs of a tool over the cores of this machine, or over machines by GNU parallel.

A worker is the tool itself with --worker. A job names the tool, and has all that a run needs but for its number.
"""
import collections
import json
import os
import queue
import shlex
import shutil
import signal
import subprocess
import sys
import threading
import time

from . import places
from .trouble import Trouble, read_text, write_octets

MOST_IN_BATCH = 16
CORES = 8  # what a machine may have, for the size of batches
WINDOW = 60  # seconds over which the speed is measured


class Workers:
    """The processes that work now, each in a process group of its own with the programs that it runs."""

    def __init__(self):
        self.started, self.is_stopped, self.lock = [], False, threading.Lock()

    def start(self, words, **pipes):
        """A new worker; None where all were stopped."""
        with self.lock:
            if self.is_stopped:
                return None
            worker = subprocess.Popen(words, text=True, start_new_session=True, **pipes)
            self.started.append(worker)
            return worker

    def stop(self):
        """Ends all of them. GNU parallel ends its jobs at the second SIGTERM."""
        with self.lock:
            self.is_stopped = True
        for number in (signal.SIGTERM, signal.SIGTERM, signal.SIGKILL):
            for worker in self.started:
                if worker.poll() is None:
                    os.killpg(worker.pid, number)
            ends = time.monotonic() + 0.5
            while time.monotonic() < ends and any(worker.poll() is None for worker in self.started):
                time.sleep(0.02)


WORKERS = Workers()


class Progress:
    """The progress of a tool, on standard error: one line that is updated on a terminal, else a line every ten seconds."""

    def __init__(self, done, count):
        self.done, self.count = done, count
        self.shown = time.monotonic()
        self.steps = collections.deque()  # when the last results came
        self.is_terminal = sys.stderr.isatty()

    def step(self, is_new):
        self.done += is_new
        now = time.monotonic()
        self.steps.append(now)
        while now - self.steps[0] > WINDOW:
            self.steps.popleft()
        if now - self.shown >= (0.2 if self.is_terminal else 10):
            self.shown = now
            self.show()

    def show(self):
        text = f"{self.done} of {self.count} runs"
        # Before the second result nothing is known of the speed: the first one waits for the domain to settle.
        if len(self.steps) > 1 and self.steps[-1] > self.steps[0]:
            speed = (len(self.steps) - 1) / (self.steps[-1] - self.steps[0])
            text += f", {speed:.1f} a second, {(self.count - self.done) / speed:.0f} s left"
        print(f"\r{text}\x1b[K" if self.is_terminal else text, end="" if self.is_terminal else "\n", file=sys.stderr, flush=True)

    def say(self, text):
        print(f"\r\x1b[K{text}" if self.is_terminal else text, file=sys.stderr, flush=True)

    def end(self):
        self.show()
        if self.is_terminal:
            print(file=sys.stderr)


def batches(numbers, count):
    """Runs in batches: small enough that each worker gets several, since a worker settles the domain once."""
    size = max(1, min(MOST_IN_BATCH, len(numbers) // (4 * count)))
    return [numbers[start : start + size] for start in range(0, len(numbers), size)]


def results(job, numbers, given, left_out, folder):
    """The results of runs as they come; a run that broke gives a result that says so, or none."""
    if given.hosts:
        yield from over_hosts(job, numbers, given, left_out, folder)
    else:
        yield from over_cores(job, numbers, max(1, given.jobs or os.cpu_count() or 1))


def work(lines, out, begin):
    """A worker: for each line, a job with its runs, one line for each result. The status is 1 where a run broke.

    `begin` returns for a job without its runs what does a run by its number."""
    last, do, status, parent = None, None, 0, os.getppid()
    for line in lines:
        job = json.loads(line)
        numbers = job.pop("runs")
        if last != job:
            last, do = job, begin(job)
        for number in numbers:
            if os.getppid() != parent:
                return 1  # nobody reads the results
            result = do(number)
            status = 1 if "broken" in result else status
            out.write(json.dumps(result) + "\n")
            out.flush()
    return status


# This machine


def over_cores(job, numbers, count):
    todo, done = queue.Queue(), queue.Queue()
    for batch in batches(numbers, count):
        todo.put(batch)
    threads = [threading.Thread(target=serve, args=(job, todo, done), daemon=True) for _ in range(count)]
    for thread in threads:
        thread.start()
    alive = len(threads)
    while alive:
        result = done.get()
        if result is None:
            alive -= 1
        else:
            yield result


def serve(job, todo, done):
    """Feeds one worker with batches. A worker that ends early is restarted, and its runs are reported as broken."""
    worker = None
    while True:
        try:
            batch = todo.get_nowait()
        except queue.Empty:
            break
        if worker is None:
            words = [sys.executable, os.path.join(places.TOOLS, job["tool"]), "--worker"]
            worker = WORKERS.start(words, stdin=subprocess.PIPE, stdout=subprocess.PIPE)
        if worker is None:
            break
        if not serve_batch(worker, job, batch, done):
            worker = None
    if worker:
        worker.stdin.close()
        worker.wait()
    done.put(None)


def serve_batch(worker, job, batch, done):
    """Gives a worker a batch and passes its results on; False where the worker ended."""
    left = set(batch)
    try:
        worker.stdin.write(json.dumps({**job, "runs": batch}) + "\n")
        worker.stdin.flush()
        while left:
            line = worker.stdout.readline()
            if not line:
                break
            result = json.loads(line)
            left.discard(result["run"])
            done.put(result)
    except (BrokenPipeError, ValueError):
        pass
    if not left:
        return True
    worker.kill()
    status = worker.wait()
    for number in sorted(left):
        done.put({"run": number, "host": "this machine", "broken": f"its worker ended with status {status}"})
    return False


# Machines


def hosts_of(path):
    lines = [line.strip() for line in read_text(path).splitlines()]
    found = [line for line in lines if line and not line.startswith("#")]
    if not found:
        raise Trouble(f"{path}: names no machine")
    return found


def parallel_words(log, login, given, tool):
    """GNU parallel's arguments: each line of its input is a job, which some machine reads as its standard input."""
    command = f"cd {shlex.quote(places.ROOT)} && exec python3 tools/{tool} --worker"
    words = ["parallel", "--will-cite", "--pipe", "-N", "1", "--joblog", log, "--sshloginfile", login]
    # A machine that stops answering is given up in the end.
    words += ["--timeout", str(given.limit * MOST_IN_BATCH), "-j", str(given.jobs or "100%")]
    return [*words, command]


def over_hosts(job, numbers, given, left_out, folder):
    """One job of GNU parallel is one batch, which the worker there reads from its standard input."""
    if not shutil.which("parallel"):
        raise Trouble("GNU parallel isn't installed (Debian: parallel), which --hosts needs")
    every = hosts_of(given.hosts)
    hosts = [host for host in every if host not in left_out] or every
    log, login = os.path.join(folder, "joblog"), os.path.join(folder, "hosts")
    write_octets(login, "".join(host + "\n" for host in hosts).encode())
    write_octets(log, b"")
    all_batches, said = batches(numbers, len(hosts) * (given.jobs or CORES)), []
    pipes = {"stdin": subprocess.PIPE, "stdout": subprocess.PIPE, "stderr": subprocess.PIPE}
    parallel = WORKERS.start(parallel_words(log, login, given, job["tool"]), **pipes)
    feeder = threading.Thread(target=feed, args=(parallel.stdin, job, all_batches), daemon=True)
    listener = threading.Thread(target=lambda: said.extend(parallel.stderr), daemon=True)
    feeder.start()
    listener.start()
    yield from parsed(parallel.stdout)
    parallel.wait()
    listener.join()
    left_out |= name_broken(log, said, len(hosts) > 1)


def feed(stream, job, all_batches):
    try:
        for batch in all_batches:
            stream.write(json.dumps({**job, "runs": batch}) + "\n")
        stream.close()
    except BrokenPipeError:
        pass


def parsed(stream):
    """Results, line by line; other output of a machine is ignored."""
    for line in stream:
        try:
            result = json.loads(line)
            if isinstance(result, dict) and isinstance(result.get("run"), int) and "host" in result:
                yield result
        except ValueError:
            pass


def name_broken(log, said, has_others):
    """Reports the machines on which jobs failed or that returned nothing; those on which no job succeeded, to be left out."""
    failed, well = {}, set()
    for line in read_text(log).splitlines()[1:]:
        # A job's number, machine, start, duration, octets sent and received, exit status and signal.
        cells = line.split("\t")
        if len(cells) > 7:
            if cells[5] != "0" and cells[6:8] == ["0", "0"]:
                well.add(cells[1])
            else:
                failed[cells[1]] = failed.get(cells[1], 0) + 1
    for host, many in failed.items():
        print(f"machine {host}: {many} jobs broke; their runs are tried again", file=sys.stderr)
    for line in said[:5]:
        print(f"  {line.rstrip()}", file=sys.stderr)
    return {host for host in failed if host not in well} if has_others else set()
