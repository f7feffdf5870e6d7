#!/usr/bin/env python3
"""Builds the program: tools/build.py [--jobs N]. Called by ./run.

Proves every crate that the program uses, lowest first, and says on standard error how far it is. Puts the
program and its sums into out/ once the last crate is proved. N is the number of processors to use; without it,
those of this machine. The status is 0 if out/ has the program of these sources, 1 if a crate isn't proved, and
130 if the build was interrupted.
"""

import argparse
import contextlib
import fcntl
import glob
import os
import re
import shutil
import signal
import subprocess
import sys
import tempfile
import threading
import time
from concurrent.futures import ThreadPoolExecutor

HOME = os.path.dirname(os.path.dirname(os.path.realpath(__file__)))
OUT = os.path.join(HOME, "out")
PROGRAM = "gherkin_run"
SO_FAR = re.compile(r"so far: (\d+) of (\d+) functions checked")


def lines_of_crates():
    """The lines of crates.txt, without comments."""
    with open(os.path.join(HOME, "crates.txt"), encoding="utf-8") as file:
        lines = [line.partition("#")[0].strip() for line in file]
    return [f"{line}\n" for line in lines if line]


def name_in(line):
    """The crate that a line of crates.txt is about."""
    return line.partition(":")[0].split()[0]


def listed_crates():
    """The crates that crates.txt lists, each with those crates of the repository that it needs."""
    needs = {name_in(line): line.partition(":")[2].split() for line in lines_of_crates()}
    return {name: [need for need in needed if need in needs] for name, needed in needs.items()}


def below(needs, name):
    """Returns the crates that a crate uses, lowest first, and then the crate."""
    found = []
    for need in needs[name]:
        found += [it for it in below(needs, need) if it not in found]
    return found + [name]


def clock(seconds):
    """A time in words."""
    minutes, seconds = divmod(int(seconds), 60)
    return f"{minutes} min {seconds} s" if minutes else f"{seconds} s"


class Progress:
    """The progress on standard error: one line that is rewritten on a terminal, otherwise a line for each crate."""

    def __init__(self, crates):
        self.total = len(crates)
        self.proved = 0
        self.running = {}
        self.began = time.monotonic()
        self.is_terminal = sys.stderr.isatty()
        self.lock = threading.Lock()

    def say(self, text):
        """Writes a line that stays."""
        clear = "\r\033[K" if self.is_terminal else ""
        sys.stderr.write(f"{clear}run: {text}\n")
        sys.stderr.flush()

    def show(self):
        """Rewrites the last line of a terminal."""
        if not self.is_terminal:
            return
        with self.lock:
            each = [f"{name} {so_far}" for name, so_far in self.running.items()]
            spent = clock(time.monotonic() - self.began)
            line = f"run: {self.proved} of {self.total} crates proved, {spent}; {', '.join(each)}"
            sys.stderr.write(f"\r\033[K{line[:os.get_terminal_size(2).columns - 1]}")
            sys.stderr.flush()

    def starts(self, name):
        """Shows that a crate is begun."""
        with self.lock:
            self.running[name] = "begins"

    def reads(self, name, line):
        """Shows a line that the toolchain said of a crate."""
        found = SO_FAR.match(line)
        if found:
            with self.lock:
                self.running[name] = f"{found[1]} of {found[2]} functions"

    def ends(self, name, is_proved, seconds):
        """Shows whether a crate was proved, and how far the build is."""
        with self.lock:
            del self.running[name]
            if not is_proved:
                self.say(f"{name} could not be proved or built; what was said of it is in {log_of(name)}")
                return
            self.proved += 1
            spent = clock(time.monotonic() - self.began)
            self.say(f"crate {self.proved} of {self.total} proved: {name}, in {clock(seconds)}; {spent} so far")

    @contextlib.contextmanager
    def shown(self):
        """Shows how far the build is, once a second, until the block ends."""
        ended = threading.Event()

        def show():
            while not ended.wait(1):
                self.show()

        thread = threading.Thread(target=show, daemon=True)
        thread.start()
        try:
            yield
        finally:
            ended.set()
            thread.join()


class Build:
    """The crates of one build, and the processes that prove them."""

    def __init__(self, needs, jobs):
        self.needs = needs
        self.crates = below(needs, PROGRAM)
        self.jobs = jobs
        self.progress = Progress(self.crates)
        self.running = {}
        self.is_stopped = False
        self.lock = threading.Lock()

    def begin(self, name, words, home):
        """Begins a command of the toolchain for a crate, unless the build was stopped: its process, or None."""
        with self.lock:
            if self.is_stopped:
                return None
            process = subprocess.Popen(["rt", *words], cwd=crate(name, home), text=True, stdin=subprocess.DEVNULL,
                                       stdout=subprocess.PIPE, stderr=subprocess.STDOUT, errors="replace",
                                       start_new_session=True)
            self.running[name] = process
            return process

    def prove(self, name, jobs, home=HOME):
        """Proves a crate in a tree, and builds the program if it is the last one. Returns whether it is proved."""
        words = ["run", "--jobs", str(jobs), "--", "--help"] if name == PROGRAM else ["lib", "--jobs", str(jobs)]
        began = time.monotonic()
        with open(log_of(name), "w", encoding="utf-8") as log:
            process = self.begin(name, words, home)
            if process is None:
                return False
            self.progress.starts(name)
            for line in process.stdout:
                log.write(line)
                self.progress.reads(name, line)
        is_proved = process.wait() == 0
        del self.running[name]
        self.progress.ends(name, is_proved, time.monotonic() - began)
        return is_proved

    def prove_apart(self, name, jobs):
        """Proves a crate in a tree of its own, since the toolchain locks a crate and all that it uses.
        Then moves what was built to its place."""
        with tempfile.TemporaryDirectory(prefix="beside.", dir=OUT) as home:
            crates = below(self.needs, name)
            with open(os.path.join(home, "crates.txt"), "w", encoding="utf-8") as listed:
                listed.writelines(line for line in lines_of_crates() if name_in(line) in crates)
            for each in crates:
                shutil.copytree(crate(each), crate(each, home), copy_function=os.link)
            is_proved = self.prove(name, jobs, home)
            kept, place = (os.path.join(crate(name, tree), "out") for tree in (home, HOME))
            os.makedirs(kept, exist_ok=True)
            shutil.rmtree(place, ignore_errors=True)
            os.rename(kept, place)
            return is_proved

    def prove_beside(self, names):
        """Proves crates side by side; the largest has the processors that the others leave."""
        largest, *others = sorted(names, key=size, reverse=True)
        with ThreadPoolExecutor(len(names)) as pool:
            try:
                shares = [pool.submit(self.prove, largest, max(self.jobs - len(others), 1))]
                shares += [pool.submit(self.prove_apart, name, 1) for name in others]
                return all([share.result() for share in shares])
            except KeyboardInterrupt:
                # The pool waits for what runs in it.
                self.stop()
                raise

    def run(self):
        """Proves all crates, those side by side that need none of each other. Returns whether all are proved."""
        left = list(self.crates)
        while left:
            names = [name for name in left if not set(self.needs[name]) & set(left)]
            if not self.prove_beside(names):
                return False
            left = [name for name in left if name not in names]
        return True

    def stop(self):
        """Ends what runs, with everything that it began. Nothing begins afterwards."""
        with self.lock:
            self.is_stopped = True
        for process in list(self.running.values()):
            for number in (signal.SIGTERM, signal.SIGKILL):
                try:
                    os.killpg(process.pid, number)
                    process.wait(timeout=5)
                except (ProcessLookupError, subprocess.TimeoutExpired):
                    continue


def crate(name, home=HOME):
    """The folder of a crate in a tree."""
    return os.path.join(home, "crates", name)


def size(name):
    """How many bytes of sources a crate has."""
    files = [os.path.join(folder, file) for folder, _, files in os.walk(crate(name)) for file in files
             if file.endswith((".rt", ".antt"))]
    return sum(os.path.getsize(file) for file in files)


def log_of(name):
    """The file that keeps what was said of a crate."""
    return os.path.join(OUT, "logs", f"{name}.log")


def size_of_work():
    """Returns the size of what building left below crates/, in words."""
    done = subprocess.run(["du", "-shc", *glob.glob(os.path.join(HOME, "crates", "*", "out"))],
                          stdout=subprocess.PIPE, text=True, check=False)
    return done.stdout.split("\n")[-2].split("\t")[0] if done.stdout else "nothing"


def sources():
    """The sum over the sources as they are."""
    return subprocess.run([os.path.join(HOME, "tools", "sources.sh")], stdout=subprocess.PIPE, text=True,
                          check=True).stdout.strip()


def is_built(wanted):
    """Returns whether out/ has the program of these sources."""
    kept = os.path.join(OUT, f"{PROGRAM}.sources")
    if not os.path.exists(kept):
        return False
    with open(kept, encoding="utf-8") as file:
        return file.read().strip() == wanted


def build(jobs):
    """Builds the program, and returns the status of this script."""
    wanted = sources()
    if is_built(wanted):
        return 0
    work = Build(listed_crates(), jobs)
    work.progress.say(f"building {PROGRAM}: proving {len(work.crates)} crates; logs are in {OUT}/logs")
    with work.progress.shown():
        try:
            is_proved = work.run()
        except KeyboardInterrupt:
            work.stop()
            work.progress.say("interrupted; what was proved is kept, and the next build goes on from there")
            return 130
    if not is_proved:
        return 1
    keep = subprocess.run([os.path.join(HOME, "tools", "keep.sh"), wanted], check=False)
    work.progress.say(f"built in {clock(time.monotonic() - work.progress.began)}; {size_of_work()} below crates/ is work "
                      "that the next build goes on from, and ./run --clean removes it")
    return keep.returncode


def interrupted(*_):
    """Ends the build as the key for an interrupt does."""
    raise KeyboardInterrupt


def main():
    """Builds the program, while no other build runs here."""
    parser = argparse.ArgumentParser(description="Builds the program.")
    parser.add_argument("--jobs", type=int, default=len(os.sched_getaffinity(0)), metavar="N")
    jobs = parser.parse_args().jobs
    for number in (signal.SIGINT, signal.SIGTERM, signal.SIGHUP):
        signal.signal(number, interrupted)
    os.makedirs(os.path.join(OUT, "logs"), exist_ok=True)
    with open(os.path.join(OUT, "lock"), "w", encoding="utf-8") as lock:
        try:
            fcntl.flock(lock, fcntl.LOCK_EX | fcntl.LOCK_NB)
        except BlockingIOError:
            sys.stderr.write("run: another build runs here; waiting for it\n")
            fcntl.flock(lock, fcntl.LOCK_EX)
        return build(jobs)


if __name__ == "__main__":
    sys.exit(main())
