#!/usr/bin/env python3
"""Proves and builds a program and the libraries below it, each as soon as those that it uses are built.

    tools/build.py [bson_program|vbson]   (./bson calls it where the program is missing or older than a source, ./vbson
                                         for the library for other languages)

The program is bson_cli where none is named. Each crate is proved from nothing, over the statements of the libraries
below. They are in crates/NAME/out/rlib/statements with a sum of all that they are made from: what has not changed is
taken as it is. Standard error says what happens and how long it takes, and on a terminal has a line of progress, which
is gone at the end. out/build.log beside the program has the output of rattle, after a line of times for each crate,
and out/proved the last line of each crate's proof. A second run that starts meanwhile waits for the first. The time of
out/built_from is that of the last run, also if there was nothing to build. Status 0: built; 3: it can't be built here.
"""
import fcntl
import hashlib
import os
import re
import shutil
import signal
import subprocess
import sys
import time

sys.dont_write_bytecode = True
TOP = os.path.dirname(os.path.dirname(os.path.realpath(__file__)))
sys.path.append(f"{TOP}/tools")

import kit

PROGRAM = sys.argv[1] if len(sys.argv) > 1 else "bson_cli"
OUT = f"{TOP}/crates/{PROGRAM}/out"
LOG = f"{OUT}/build.log"
# The last line of a crate that is proved from nothing, with no word that leaves something out or assumes something.
PROVED = re.compile(
    r"logic=proved functions=[1-9]\d*( axioms=\d+)?( target=x86_64-unknown-linux-gnu cpu=x86-64-v2)? sum=[0-9a-f]{16}"
    r" native=nat,char,string logic-built=trusted libraries-built=trusted statements=trusted"
)
# The minutes that a crate takes with one job on a machine of four processors at 2.5 GHz with nothing beside it, the
# minutes of them that further jobs do not share, and the memory in GB of its first job. From the lines of out/build.log:
# processor seconds / 60, and what then gives the seconds by the jobs that it had.
COSTS = {
    "bson_datetime": (2.4, 0.2, 1.6),
    "bson_decimal": (2.0, 0.2, 1.6),
    "bson_double": (1.1, 0.2, 1.6),
    "bson_store": (4.5, 1.2, 2.0),
    "bson_types": (4.0, 0.5, 1.6),
    "bson_scalar": (7.9, 1.2, 2.4),
    "bson_model": (1.0, 0.2, 1.6),
    "bson_tree": (1.8, 0.5, 1.6),
    "bson_text": (7.7, 1.2, 2.4),
    "bson_tokens": (3.8, 0.7, 1.6),
    "bson_json": (0.8, 0.2, 1.6),
    "bson_v1": (1.5, 0.3, 1.6),
    "bson": (13.5, 1.4, 4.6),
    "bson_convert": (1.3, 0.4, 1.8),
    "bson_run": (4.4, 0.7, 2.5),
    "bson_cli": (1.5, 0.9, 1.6),
    "bson_bytes": (6.5, 0.7, 1.9),
    "bson_codec": (7.9, 1.5, 2.4),
    "bson_program": (6.8, 1.2, 2.5),
    "vbson": (2.5, 1.2, 1.6),
}


def stop(why):
    print(f"bson: {why}", file=sys.stderr)
    sys.exit(3)


def counted(count, word):
    """As `1 minute`, or `2 minutes`."""
    return f"{count} {word}{'s' * (count != 1)}"


def minutes(count):
    return counted(max(1, round(count)), "minute")


def sums_of(rtlib, crates):
    """Of each crate, lowest first, a sum of all that it is made from: its files, the libraries below, and the kit."""
    found = {}
    for crate in crates:
        it = hashlib.sha256(repr(crate.said).encode())
        for file in (f"{rtlib.KIT}/WHAT", f"{rtlib.KIT}/KIT-ID", *rtlib.files_of(crate.folder)):
            with open(file, "rb") as text:
                it.update(repr((file.replace(TOP, ""), text.read())).encode())
        it.update(repr([found[dep.name] for dep in crate.deps]).encode())
        found[crate.name] = it.hexdigest()
    return found


def sum_of_files(folder):
    """A sum of the names and the bytes of all files of a folder."""
    found = hashlib.sha256()
    for below, folders, names in os.walk(folder):
        folders.sort()
        for name in sorted(names):
            with open(f"{below}/{name}", "rb") as file:
                found.update(repr((os.path.relpath(f"{below}/{name}", folder), hashlib.file_digest(file, "sha256").digest())).encode())
    return found.hexdigest()


class Step:
    """The build of one crate."""

    def __init__(self, rtlib, crate, of_sources):
        self.rtlib, self.crate, self.of_sources, self.name = rtlib, crate, of_sources, crate.name
        self.minutes_alone, self.minutes_serial, self.memory = COSTS.get(self.name, (1.5, 0.5, 1.6))
        self.kept = f"{crate.folder}/out/rlib/statements"
        crate.rlib = f"{self.kept}/{self.name}.rlib"
        self.made = f"{crate.folder}/out/{self.name}" if crate.is_program else f"{crate.folder}/out/lib{self.name}.a"
        self.made = crate.rlib if crate.makes_rlib() else self.made
        self.log = f"{OUT}/build/{self.name}"
        self.process, self.jobs, self.began, self.used = None, 0, 0.0, None
        # The last line of its proof, and where it was proved, if not here.
        self.proved, self.origin = "", ""

    def minutes(self, jobs):
        return self.minutes_serial + (self.minutes_alone - self.minutes_serial) / jobs

    def need(self, jobs):
        """Its memory in GB: a further job shares much of it."""
        return self.memory * (1 + 0.4 * (jobs - 1))

    def sum_of_made(self):
        """A sum of the program, or of the files of the library."""
        return sum_of_files(self.made) if os.path.isdir(self.made) else self.rtlib.sum_of(self.made)

    def is_built(self):
        """Whether a build has proved and kept it, and neither its sources nor what was made have changed."""
        kept = (self.rtlib.text_of(f"{self.kept}/stamp") or "").split("\n")
        if len(kept) != 4 or not os.path.exists(self.made):
            return False
        self.proved, self.origin = kept[2:]
        return kept[:2] == [self.of_sources, self.sum_of_made()] and bool(PROVED.fullmatch(self.proved))

    def keep(self):
        with open(f"{self.kept}/stamp", "w", encoding="utf-8") as it:
            it.write("\n".join([self.of_sources, self.sum_of_made(), self.proved, self.origin]))

    def start(self, jobs):
        shutil.rmtree(self.kept, ignore_errors=True)
        os.makedirs(self.kept)
        words = self.crate.words(["--jobs", str(jobs)], keeps=False)
        if self.crate.makes_rlib():
            words += ["--statements", "-o", self.made]
        else:
            to = f"{self.made}.o" if self.crate.is_program else self.made
            words += ["--toolchain", f"{self.rtlib.KIT}/toolchain", "--backend", "llvm", "-o", to]
        self.jobs, self.began = jobs, time.monotonic()
        self.process = self.run(self.rtlib.RATTLE, "build", *words)

    def run(self, *words):
        with open(self.log, "ab") as log:
            how = {"cwd": self.crate.folder, "stdin": subprocess.DEVNULL, "stdout": log, "stderr": subprocess.STDOUT}
            return subprocess.Popen([*self.rtlib.guarded(), *words], **how)

    def has_ended(self):
        """Whether rattle has ended, and then what it took."""
        ended, status, used = os.wait4(self.process.pid, os.WNOHANG)
        if ended:
            self.process.returncode, self.used = os.waitstatus_to_exitcode(status), used
        return bool(ended)

    def is_done(self):
        """Whether the crate is proved and made. Of what is not proved nothing is kept."""
        lines = [it for it in self.rtlib.text_of(self.log).split("\n") if it.startswith("logic=")]
        is_done = self.process.returncode == 0 and len(lines) == 1 and bool(PROVED.fullmatch(lines[0]))
        if is_done and self.crate.is_program:
            top = self.rtlib.KIT
            words = ["--target", "x86_64-unknown-linux-gnu", "--toolchain", f"{top}/toolchain", "-o", self.made]
            words += [f"{self.made}.o", f"{top}/c/libos_c.a", f"{top}/c/liblibc_c.a"]
            is_done = self.run(f"{top}/bin/rattle-link", *words).wait() == 0
            os.remove(f"{self.made}.o")
        if is_done:
            self.proved = lines[0]
        else:
            shutil.rmtree(self.kept, ignore_errors=True)
        return is_done

    def elapsed(self):
        return (time.monotonic() - self.began) / 60

    def told(self):
        """A line of what the build took."""
        seconds, work = 60 * self.elapsed(), self.used.ru_utime + self.used.ru_stime
        return (f"{self.name}: {seconds:.1f} seconds by {self.jobs} jobs, {work:.1f} processor seconds,"
                f" {self.used.ru_maxrss / 1e6:.1f} GB, status {self.process.returncode}")


class Schedule:
    """Which crate is built next, and by how many jobs: ready ones side by side, the longest chain first."""

    def __init__(self, steps, processors, memory):
        self.steps, self.processors, self.memory = steps, processors, memory
        # The jobs of those crates that do better with other than their share.
        self.jobs = {}
        # Of each crate, the minutes from its start to the end of the last crate that waits for it.
        self.chain = {}
        for name in reversed([*steps]):
            users = [it.name for it in steps.values() if name in [dep.name for dep in it.crate.deps]]
            self.chain[name] = steps[name].minutes(2) + max((self.chain[it] for it in users), default=0)
        self.improve()

    def improve(self):
        """Gives each crate, the longest first, the jobs with which the whole plan is shortest."""
        best = max(self.planned(()).values())
        for name in sorted(self.steps, key=lambda it: -self.steps[it].minutes_alone):
            for jobs in range(1, min(4, self.processors) + 1):
                before, self.jobs = self.jobs, {**self.jobs, name: jobs}
                end = max(self.planned(()).values())
                best, self.jobs = (end, self.jobs) if end < best else (best, before)

    def next(self, done, running):
        """The crates to start now, each with its jobs: its share of the free processors, or fewer where memory is short."""
        ready = [it for it, step in self.steps.items() if it not in done and it not in running]
        ready = [it for it in ready if all(dep.name in done for dep in self.steps[it].crate.deps)]
        running, found = dict(running), []
        for at, name in enumerate(sorted(ready, key=lambda it: -self.chain[it])):
            room = self.memory - sum(self.steps[it].need(jobs) for it, jobs in running.items())
            free = self.processors - sum(running.values())
            # (two jobs each at least, so that the longest chains come first)
            share = min(free, self.jobs.get(name, -(-free // min(len(ready) - at, max(1, free // 2)))))
            # One that all others wait for takes all processors: what runs beside it ends sooner.
            is_head = len(ready) == 1 and all(self.chain[name] > self.chain[it] for it in running)
            most = min(4, self.processors if is_head else share)
            jobs = next((it for it in range(most, 0, -1) if self.steps[name].need(it) <= room), 0 if running else 1)
            if jobs > 0 and (free > 0 or is_head):
                running[name] = jobs
                found.append((name, jobs))
        return found

    def planned(self, done):
        """When each crate is expected to end, in minutes of the machine of COSTS, from the start on."""
        done, running, ends, now = {*done}, {}, {}, 0.0
        while len(done) < len(self.steps):
            for name, jobs in self.next(done, {it: jobs for it, (jobs, _) in running.items()}):
                running[name] = jobs, now + self.steps[name].minutes(jobs)
            name = min(running, key=lambda it: running[it][1])
            now = ends[name] = running.pop(name)[1]
            done.add(name)
        return ends


class Build:
    """The builds of the crates that are not built yet, by a schedule."""

    def __init__(self, steps, done, schedule, log):
        self.steps, self.done, self.schedule, self.log = steps, done, schedule, log
        self.running, self.failed = {}, None
        self.began = time.monotonic()
        # How many minutes it takes, as far as is known, and the number that was printed last.
        self.planned = self.whole = max(schedule.planned(done).values(), default=0.0)
        self.told = 0.0
        # The minutes that the crates took that have ended, and those that the costs gave them.
        self.taken, self.given = 0.0, 0.0

    def run(self):
        """Builds all, or stops at the first crate that is not proved."""
        try:
            while len(self.done) < len(self.steps) and not self.failed:
                for name, jobs in self.schedule.next(self.done, {it: step.jobs for it, step in self.running.items()}):
                    self.running[name] = self.steps[name]
                    self.running[name].start(jobs)
                time.sleep(0.05)
                for step in [it for it in self.running.values() if it.has_ended()]:
                    self.end(self.running.pop(step.name))
                self.show()
        finally:
            self.clear()
            for step in self.running.values():
                step.process.kill()

    def end(self, step):
        print(step.told(), file=self.log, flush=True)
        if not step.is_done():
            self.failed = self.failed or step
            return
        # (a file that was edited meanwhile may not be what was proved)
        if sums_of(step.rtlib, [*step.crate.below(), step.crate])[step.name] == step.of_sources:
            step.keep()
        self.done.add(step.name)
        self.taken += step.elapsed()
        self.given += step.minutes(step.jobs)
        self.whole = self.planned * self.taken / self.given
        if len(self.done) < len(self.steps) and abs(self.whole - self.told) > 0.25 * self.told:
            self.told = self.whole
            self.clear()
            print(f"bson: {len(self.done)} of {len(self.steps)} crates proved; about {minutes(self.whole)} in all", file=sys.stderr)

    def elapsed(self):
        return (time.monotonic() - self.began) / 60

    def show(self):
        """The line of progress, on a terminal."""
        if sys.stderr.isatty():
            left = f", about {minutes(self.whole - self.elapsed())} left" if self.told else ""
            text = f"bson: {len(self.done)} of {len(self.steps)} crates{left}; {', '.join(self.running)}"
            sys.stderr.write(f"\r\x1b[K{text[:shutil.get_terminal_size().columns - 1]}")
            sys.stderr.flush()

    def clear(self):
        if sys.stderr.isatty():
            sys.stderr.write("\r\x1b[K")
            sys.stderr.flush()


def own_lock():
    """The lock of a build in this checkout."""
    lock = open(f"{TOP}/crates.txt", encoding="utf-8")
    try:
        fcntl.flock(lock, fcntl.LOCK_EX | fcntl.LOCK_NB)
    except OSError:
        print("bson: another run is building here; waiting for it", file=sys.stderr)
        fcntl.flock(lock, fcntl.LOCK_EX)
    return lock


def build(rt, steps):
    """Builds what is not built yet, and returns the crate that is not proved, if any."""
    done = set()
    for it in steps.values():
        if all(dep.name in done for dep in it.crate.deps) and it.is_built():
            done.add(it.name)
    shutil.rmtree(f"{OUT}/build", ignore_errors=True)
    os.makedirs(f"{OUT}/build")
    schedule = Schedule(steps, rt.processors(), 0.85 * rt.free() / 1e9)
    with open(LOG, "w", encoding="utf-8") as log:
        it = Build(steps, done, schedule, log)
        if len(done) < len(steps):
            crates, processors = counted(len(steps) - len(done), "crate"), counted(schedule.processors, "processor")
            print(f"bson: proving and building {PROGRAM}, {crates} by {processors}: some {minutes(it.whole)}, and after the"
                  f" first crate a better guess; the log is {LOG}", file=sys.stderr)
        try:
            it.run()
        finally:
            for name in steps:
                said = rt.rtlib.text_of(f"{OUT}/build/{name}")
                print(*[f"{name}: {line}" for line in (said or "").splitlines()], sep="\n", file=log)
    return it.failed


def main():
    rt = kit.rt() or stop(f"{PROGRAM} is not built yet, and the Rattle kit that proves and builds it is not here: no command 'rt'")
    # (held until this process ends)
    lock = own_lock()
    try:
        os.makedirs(OUT, exist_ok=True)
        open(f"{OUT}/built_from.new", "w").close()
    except OSError:
        stop(f"{PROGRAM} is not built from these sources, and can't be built here, since {OUT} can't be written")
    rt.rtlib.guarded()
    found = {it.name: it for it in rt.rtlib.crates_below(TOP)}
    crates = [*found[PROGRAM].below(), found[PROGRAM]]
    sums = sums_of(rt.rtlib, crates)
    steps = {it.name: Step(rt.rtlib, it, sums[it.name]) for it in crates}
    failed = build(rt, steps)
    if failed:
        said = rt.rtlib.text_of(failed.log).splitlines()
        stop(f"{failed.name} is not proved, so {PROGRAM} is not built; {LOG} has all, and ends for it:\n" + "\n".join(said[-5:]))
    with open(f"{OUT}/proved", "w", encoding="utf-8") as it:
        it.writelines(f"{step.name}: {step.proved}{step.origin and f' ({step.origin})'}\n" for step in steps.values())
    shutil.rmtree(f"{OUT}/build")
    os.replace(f"{OUT}/built_from.new", f"{OUT}/built_from")
    return 0


if __name__ == "__main__":
    # (the guard then ends what runs)
    signal.signal(signal.SIGTERM, lambda *_: sys.exit(143))
    try:
        sys.exit(main())
    except KeyboardInterrupt:
        sys.exit(130)
