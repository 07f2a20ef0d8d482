"""Runs all tests: ./dev gate [--anew] [--whole] [--record NAME]

First the gate compares the definitions that documents quote with the files, checks the order of crates.txt, and checks
the form of every wrong program. Five parts follow:

1. `rt ci` proves every crate and its tests from nothing, and runs the tests and the stored run, on a schedule of the
   gate's own (gate/schedule.py): the longest chain of crates goes first. Meanwhile the prover must refuse the wrong programs of must-fail/, each at the
   function that it names, over the libraries that are built by then.
2. The proved program runs all scenarios.
3. Each allocation of that program is made to fail in turn.
4. The files that it reads are cut, and each of its reads and writes is made to fail in turn.
5. It plays 1,000 random schedules, and serves random scripts; `replay` and `check` must agree with all that it tells.

The last line is `N passed, M failed`, as that of `rt ci`. It counts crates and wrong programs; any other check that
fails counts as one failure. The exit status is 0 if nothing failed.

With --whole the prover must also refuse the further wrong programs, those of wrong-programs/.

If the toolchain's `rt ci` keeps its results on this machine (then `rt help` lists --anew), it does not repeat what passed
before with the same files over the same libraries; with --anew it repeats everything. Otherwise every run does all, and
--anew changes nothing.

The cost so far and the ten most costly parts are printed every 20 minutes and at the end, also after Ctrl-C or SIGTERM.
With --record a run that is not interrupted writes its costs into docs/COSTS.md, under NAME.
"""

import argparse
import contextlib
import os
import re
import shutil
import signal
import subprocess
import sys
import tempfile
import threading
import time

from costs import Costs, record
from edits import KINDS, Trials, edits_of

ROOT = os.path.dirname(os.path.dirname(os.path.abspath(__file__)))
PROGRAM = "crates/tpcc/out/tpcc"
# `rt ci` with the schedule of the gate.
SCHEDULED = [sys.executable, "-B", f"{ROOT}/gate/schedule.py"]
VERDICT = re.compile(r"(\d+) passed, (\d+) failed")
START = time.monotonic()


def say(text):
    minutes, seconds = divmod(int(time.monotonic() - START), 60)
    print(f"gate: {minutes}:{seconds:02}: {text}", flush=True)


def crates():
    """Returns the crates of crates.txt, in its order, each with the crates that it stands on."""
    with open(f"{ROOT}/crates.txt", encoding="utf-8") as file:
        lines = [line.partition(":") for line in file if line.strip() and not line.startswith("#")]
    return {name.strip(): stands_on.split() for name, _, stands_on in lines}


def misplaced():
    """Returns a message for each crate of crates.txt that comes before one that it stands on."""
    named, earlier, faults = crates(), set(), []
    for name, stands_on in named.items():
        later = [it for it in stands_on if it in named and it not in earlier]
        faults += [f"crates.txt is not lowest first: {name} must come after {it}, on which it stands" for it in later]
        earlier.add(name)
    return faults


class Progress:
    """Follows the output of `rt ci`. Prints how many crates have passed each part. Calls `proved` once for each proved crate, with
    the folder below which its library is built."""

    def __init__(self, proved):
        named = crates()
        has = lambda it, *words: subprocess.run(["grep", "-rqF", *words], cwd=f"{ROOT}/crates/{it}", stderr=subprocess.DEVNULL).returncode == 0
        self.proved, self.lock, self.parts = proved, threading.Lock(), {
            "proofs": (re.compile(r"rt: (\w+) (proved|is kept)"), len(named)),
            "tests": (re.compile(r"rt: (\w+): its tests are proved"), sum(has(it, "#[test]", "src") for it in named)),
        }
        self.done = {part: set() for part in self.parts}

    def look(self, folder, line):
        for part, (pattern, _) in self.parts.items():
            found = pattern.match(line)
            with self.lock:
                if found and found[1] not in self.done[part]:
                    self.done[part].add(found[1])
                    say(", ".join(f"{name} of {len(self.done[name])} of {of} crates" for name, (_, of) in self.parts.items()))
                    if part == "proofs":
                        self.proved(folder, found[1])


class Run:
    """A run of `rt ci` in a folder, as a context manager. Leaving it early ends the run and the provers that it has started."""

    def __init__(self, folder, progress, *words):
        self.folder, self.progress, self.verdict = folder, progress, (0, 1)
        self.words = [*SCHEDULED, *words]
        self.reader = threading.Thread(target=self.read)

    def __enter__(self):
        self.ran = subprocess.Popen(self.words, cwd=self.folder, stdout=subprocess.PIPE, text=True, errors="replace")
        self.reader.start()
        return self

    def __exit__(self, *_):
        self.ran.terminate()
        self.reader.join()

    def read(self):
        for line in self.ran.stdout:
            found = VERDICT.fullmatch(line.strip())
            if found:
                self.verdict = int(found[1]), int(found[2])
            else:
                print(line, end="", flush=True)
                self.progress.look(self.folder, line)
        if self.ran.wait():
            self.verdict = self.verdict[0], max(self.verdict[1], 1)


def keeps_results():
    """Returns whether this toolchain's `rt ci` keeps what it has passed. Then it has the option --anew."""
    ran = subprocess.run(["rt", "help"], stdin=subprocess.DEVNULL, capture_output=True, text=True, errors="replace", check=False)
    return "--anew" in ran.stdout + ran.stderr


@contextlib.contextmanager
def without_edits(names):
    """Yields a folder with a copy of these crates: everything that `rt ci` reads, except the wrong programs."""
    names = set(names)
    with tempfile.TemporaryDirectory(prefix="gate-") as room:
        for name in names:
            shutil.copytree(f"{ROOT}/crates/{name}", f"{room}/crates/{name}", ignore=shutil.ignore_patterns("out", *KINDS))
        with open(f"{room}/crates.txt", "w", encoding="utf-8") as file:
            file.writelines(f"{name}: {' '.join(stands_on)}\n" for name, stands_on in crates().items() if name in names)
        shutil.copy(f"{ROOT}/HANDLES", room)
        yield room


def passes(what, *words):
    """Runs a part that is a separate command. Returns whether it passed."""
    say(what)
    return subprocess.run([sys.executable, "-B", *words], cwd=ROOT, check=False).returncode == 0


def run(anew, whole):
    """Runs the parts. A failure before the scenarios ends the run. Returns how many passed and failed."""
    if not passes("comparing the definitions that documents quote", "docs/quotes.py"):
        return 0, 1
    say("checking the order of crates.txt and the form of the wrong programs")
    faults = misplaced() + [f"crates/{it}: {it.fault}" for it in edits_of(ROOT, crates(), KINDS) if it.fault]
    if faults:
        print("\n".join(faults))
        return 0, 1
    edits = edits_of(ROOT, crates(), KINDS if whole else KINDS[:1])
    say(f"part 1 of 5: proving every crate and its tests, running the tests, and trying {len(edits)} wrong programs")
    with contextlib.ExitStack() as held:
        room = held.enter_context(without_edits(crates()))
        trials = held.enter_context(Trials(edits, say))
        with Run(room, Progress(trials.begin), *["--anew"] * (anew and keeps_results())) as judge:
            judge.reader.join()
        passed, failed = judge.verdict
        if failed:
            return passed, failed
        counts = trials.end()
        passed, failed = passed + counts[0], failed + counts[1]
        os.makedirs(f"{ROOT}/{os.path.dirname(PROGRAM)}", exist_ok=True)
        shutil.copy(f"{room}/{PROGRAM}", f"{ROOT}/{PROGRAM}")
    if failed:
        return passed, failed
    failed += not passes("part 2 of 5: running all scenarios with the proved program", "scenarios/scenarios.py", "--program", PROGRAM)
    failed += not passes("part 3 of 5: making each allocation of that program fail in turn", "gate/allocations.py", PROGRAM)
    failed += not passes("part 4 of 5: cutting the files that it reads, and making its reads and writes fail", "gate/file_faults.py", PROGRAM)
    failed += not passes("part 5 of 5: playing 1,000 random schedules, and serving random scripts", "gate/soak.py", PROGRAM)
    return passed, failed


def commit():
    """Returns the short name of the current commit, or an empty string if git reports none."""
    ran = subprocess.run(["git", "rev-parse", "--short", "HEAD"], cwd=ROOT, capture_output=True, text=True, check=False)
    return ran.stdout.strip()


def main():
    words = argparse.ArgumentParser(prog="dev gate", description=__doc__, formatter_class=argparse.RawDescriptionHelpFormatter)
    words.add_argument("--anew", action="store_true", help="repeat also what passed before on this machine")
    words.add_argument("--whole", action="store_true", help="have the prover refuse the further wrong programs too")
    words.add_argument("--record", metavar="NAME", help="write the costs of this run into docs/COSTS.md under this name")
    words = words.parse_args()
    signal.signal(signal.SIGTERM, signal.default_int_handler)
    try:
        with Costs(say) as costs:
            passed, failed = run(words.anew, words.whole)
    except KeyboardInterrupt:
        say("interrupted: no verdict")
        return 130
    verdict = f"{passed} passed, {failed} failed"
    if words.record:
        record(f"{ROOT}/docs/COSTS.md", words.record, costs, commit(), verdict)
    print(verdict)
    return 1 if failed else 0


if __name__ == "__main__":
    sys.exit(main())
