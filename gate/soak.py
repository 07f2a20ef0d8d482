"""Plays random schedules, and serves random scripts: gate/soak.py PROGRAM [--cases N] [--events N] [--first SEED] [--minutes N]
[--beside OTHER]

Each case has a seed. It plays a schedule of 500 events, or of as many as --events says, by `tpcc sim`: submissions of all five
kinds, some of them hostile, moves between executors, takes, sends and now and then rounds, with small inboxes, and in some cases
with a small log. Orders have up to 15 lines, in every fourth case up to 30. Every 32nd case has 256 warehouses. Every tenth case
also serves scripts by `tpcc run`, with moves. In each case

- `replay` of the log is equal, and gives the tables that were written; `check` of them succeeds. A schedule is also played up to
  each of its rounds, so this is so whenever nothing is active.
- Each answer `done` is the log's entry at its place, with the same session, number and reply, and the log has no other entries.
- Each admitted request is answered once. The rounds at the end of a schedule end quiet. The places of a session ascend.

A case that fails is printed with its seed, and its files are kept. With --minutes new cases are tried for that long. With --beside
another program, which has the same commands, plays each schedule too, and must print and write the same.
"""

import argparse
import os
import random
import shutil
import subprocess
import sys
import tempfile
import time
from concurrent.futures import ProcessPoolExecutor
from functools import partial
from itertools import count

EXECUTORS = 3
MOMENTS = ["2024-05-01T12:00:00", "1970-01-01T00:00:00", "9999-12-31T23:59:59"]
NAMES = ["BARBARBAR", "BARBAROUGHT", "BARBARABLE", "EINGEINGEING"]
# The scales of the datasets: warehouses, items, customers of a district.
SCALES = [(1, 5, 1), (2, 10, 3), (3, 70, 5), (4, 30, 3)]
# The scale with the most warehouses, and how many cases have it: one of so many.
WIDE, WIDENED = (256, 5, 1), 32
# How many cases have orders of up to the most lines: one of so many.
LONG = 4
# How many cases serve scripts too: one of so many.
SERVED = 10
# How many cases there are in a batch, for each processor. A batch ends when its last case does.
BATCH = 512


class Wrong(Exception):
    """A result is not what it must be."""


class Draws:
    """Random requests and events of one case."""

    def __init__(self, seed):
        self.random = random.Random(seed)
        self.scale = self.random.choice(SCALES)
        if seed % WIDENED == 0:
            self.scale = WIDE
        self.most_lines = 30 if seed % LONG == 0 else 15

    def number(self, most):
        """Returns a number from 1 to `most`, or now and then one that is out of this range."""
        return self.random.choice([0, most + 1, 4294967295]) if self.random.random() < 0.01 else self.random.randint(1, most)

    def customer(self):
        number = self.random.random() < 0.7
        return f"#{self.number(self.scale[2])}" if number else self.random.choice(NAMES)

    def request(self, in_script=False):
        """Returns a request, or a record of a script. Most are of few groups, so that many wait or die."""
        warehouses, items, _ = self.scale
        w, d, moment = self.number(warehouses), self.number(2), self.random.choice(MOMENTS)
        kind = self.random.choice("NNNPPPODL")
        if kind == "P":
            return f"P,{w},{d},{self.number(warehouses)},{self.number(2)},{self.customer()},{self.random.randint(1, 500000)},{moment}"
        if kind == "O":
            return f"O,{w},{d},{self.customer()}"
        if kind == "D":
            # In a script a Delivery is of a warehouse, and is carried out as ten, one for each district.
            return f"D,{w}{'' if in_script else f',{d}'},{self.random.randint(1, 10)},{moment}"
        if kind == "L":
            return f"L,{w},{d},{self.random.randint(10, 20)}"
        lines = [f"{self.number(items)},{self.number(warehouses)},{self.random.randint(1, 10)}" for _ in range(self.random.randint(5, self.most_lines))]
        return f"N,{w},{d},{self.number(self.scale[2])},{moment},{','.join(lines)}"

    def schedule(self, events):
        """Returns the items of a schedule of so many events that ends with rounds."""
        items, numbers = [], [0] * self.random.choice([2, 4, 8, 64])
        for _ in range(events):
            pick = self.random.random()
            if pick < 0.1:
                session = self.random.randrange(len(numbers))
                items.append(f"S,{session},{numbers[session]},{self.request()}")
                numbers[session] += 1
            elif pick < 0.13:
                first = self.random.randint(1, self.scale[0])
                items.append(f"M,{first},{self.random.randint(first, self.scale[0])},{self.random.randrange(EXECUTORS)}")
            elif pick < 0.135:
                items.append("R")
            else:
                items.append(f"{self.random.choice('TX')},{self.random.randrange(EXECUTORS)}")
        return [*items, "R"]

    def limits(self):
        """Returns the words for the limits of the inboxes and of the log."""
        limit = self.random.choice([1, 3, 20, None, None, None])
        return ["--inbox", str(self.random.choice([1, 2, 4, 4, 1024])), *(["--log-limit", str(limit)] if limit else [])]


def write(path, records):
    with open(path, "w", encoding="utf-8") as file:
        file.write("".join(f"{it}\n" for it in [*records, f"END,{len(records)}"]))


def records_of(path):
    """Returns the fields of each record of a file but its last one."""
    with open(path, encoding="utf-8") as file:
        return [line.split(",") for line in file.read().splitlines()[:-1]]


class Case:
    """One case, in a folder of its own."""

    def __init__(self, words, datasets, folder, seed):
        self.program, self.other, self.folder, self.seed, self.draws = words.program, words.beside, folder, seed, Draws(seed)
        self.events = words.events
        self.dataset = datasets[self.draws.scale]

    def call(self, *words, program=None):
        """Runs the program, or another one, and returns what it prints. It must succeed."""
        ran = subprocess.run([program or self.program, *words], cwd=self.folder, capture_output=True, text=True, check=False)
        if ran.returncode:
            raise Wrong(f"{' '.join(words)}: status {ran.returncode}, {(ran.stderr or ran.stdout).strip()}")
        return ran.stdout.splitlines()

    def judge(self, answers):
        """Compares these answers, each with its session, its number and what follows, with the log, and the log with the tables."""
        entries, done = records_of(f"{self.folder}/log.csv"), {}
        for session, number, *answer in answers:
            if answer[0] == "done":
                done[int(answer[1])] = [session, number, *answer[2:]]
        # An entry has its place, session and number, the number of the request's fields, the request and the reply.
        logged = {int(it[0]): [it[1], it[2], *it[4 + int(it[3]) :]] for it in entries}
        if done != logged:
            place = min(it for it in done.keys() | logged.keys() if done.get(it) != logged.get(it))
            raise Wrong(f"place {place}: answered {done.get(place)}, logged {logged.get(place)}")
        if self.call("replay", self.dataset, "log.csv", "--tables", "replayed.csv") != [f"equal {len(entries)}"]:
            raise Wrong("replay of the log is not equal")
        if not same(f"{self.folder}/tables.csv", f"{self.folder}/replayed.csv"):
            raise Wrong("the tables are not those of the replay")
        self.call("check", "tables.csv")

    def play(self, items, limits):
        """Plays a schedule that ends with rounds."""
        write(f"{self.folder}/schedule.csv", items)
        words = ["sim", self.dataset, "schedule.csv", "--executors", str(EXECUTORS), *limits]
        lines = self.call(*words, "--log", "log.csv", "--tables", "tables.csv")
        if self.other:
            others = self.call(*words, "--log", "other-log.csv", "--tables", "other-tables.csv", program=self.other)
            if lines != others or not all(same(f"{self.folder}/{it}.csv", f"{self.folder}/other-{it}.csv") for it in ("log", "tables")):
                raise Wrong("the other program prints or writes something else")
        printed = [line.split(",") for line in lines]
        if printed[-1] != ["quiet"]:
            raise Wrong(f"the last rounds end with {printed[-1]}")
        answers = [it[1:] for it in printed if it[0] == "answered"]
        keys = [tuple(it[:2]) for it in answers]
        if len(set(keys)) != len(keys):
            raise Wrong("a request is answered twice")
        admitted = sum(it[0] == "accepted" for it in printed)
        refused = sum(it[2] == "refused" and it[3] not in ("11", "12", "14") for it in answers)
        if admitted != len(answers) - refused:
            raise Wrong(f"{admitted} requests were admitted, and {len(answers) - refused} of them answered")
        self.judge(answers)

    def serve(self):
        """Serves scripts, with moves, by executors in threads."""
        scripts = [[self.draws.request(in_script=True) for _ in range(40)] for _ in range(self.draws.random.randint(1, 6))]
        for script, records in enumerate(scripts):
            write(f"{self.folder}/script-{script}.csv", records)
        first = self.draws.random.randint(1, self.draws.scale[0])
        write(f"{self.folder}/moves.csv", [f"{first},{self.draws.scale[0]},{self.draws.random.randrange(EXECUTORS)}" for _ in range(20)])
        words = ["--executors", str(EXECUTORS), *self.draws.limits(), "--moves", "moves.csv", "--log", "log.csv", "--tables", "tables.csv", "--quiet"]
        answers = [line.split(",") for line in self.call("run", self.dataset, *[f"script-{it}.csv" for it in range(len(scripts))], *words)]
        asked = [
            [str(script), str(number)]
            for script, records in enumerate(scripts)
            for number, record in enumerate(records)
            for _ in range(10 if record.startswith("D,") else 1)
        ]
        if [it[:2] for it in answers] != asked:
            raise Wrong("not every request has one answer")
        for script in range(len(scripts)):
            places = [int(it[3]) for it in answers if it[0] == str(script) and it[2] == "done"]
            if places != sorted(places):
                raise Wrong(f"the places of script {script} do not ascend")
        self.judge(answers)

    def run(self):
        """Runs the case. Returns what is wrong, or None."""
        os.makedirs(self.folder)
        items, limits = self.draws.schedule(self.events), self.draws.limits()
        try:
            for end in [place + 1 for place, it in enumerate(items) if it == "R"]:
                self.play(items[:end], limits)
            if self.seed % SERVED == 0:
                self.serve()
        except Wrong as wrong:
            return str(wrong)
        shutil.rmtree(self.folder)
        return None


def same(one, other):
    with open(one, "rb") as first, open(other, "rb") as second:
        return first.read() == second.read()


def datasets_in(program, room):
    """Makes a dataset of each scale. Returns their paths."""
    paths = {}
    for scale in [*SCALES, WIDE]:
        paths[scale] = f"{room}/{'-'.join(map(str, scale))}.csv"
        words = [it for name, number in zip(("warehouses", "items", "customers"), scale) for it in (f"--{name}", str(number))]
        subprocess.run([program, "populate", paths[scale], *words, "--quiet"], check=True)
    return paths


def try_one(words, datasets, room, until, seed):
    """Runs the case of this seed, unless the time is over. Returns the seed, what is wrong or None, and whether the case was run."""
    if words.minutes and time.monotonic() > until:
        return seed, None, False
    return seed, Case(words, datasets, f"{room}/{seed}", seed).run(), True


def main():
    words = argparse.ArgumentParser(description=__doc__, formatter_class=argparse.RawDescriptionHelpFormatter)
    words.add_argument("program", type=os.path.abspath, help="a built program")
    words.add_argument("--cases", type=int, default=1000, help="how many cases there are; 1000 by default")
    words.add_argument("--events", type=int, default=500, help="how many events a schedule has; 500 by default")
    words.add_argument("--first", type=int, default=1, metavar="SEED", help="the seed of the first case; 1 by default")
    words.add_argument("--beside", type=os.path.abspath, metavar="OTHER", help="another program that must print and write the same")
    words.add_argument("--minutes", type=float, help="try new cases for so long, whatever --cases says")
    words = words.parse_args()
    until = time.monotonic() + 60 * (words.minutes or 0)
    seeds = count(words.first) if words.minutes else iter(range(words.first, words.first + words.cases))
    room, failed, tried = tempfile.mkdtemp(prefix="soak-"), 0, 0
    datasets, processors = datasets_in(words.program, room), os.cpu_count() or 1

    # There are two lanes for each processor, since a case that serves scripts waits for its threads.
    with ProcessPoolExecutor(2 * processors) as pool:
        for some in iter(lambda: [it for _, it in zip(range(BATCH * processors), seeds)], []):
            for seed, wrong, was_tried in pool.map(partial(try_one, words, datasets, room, until), some, chunksize=8):
                tried += was_tried
                if wrong:
                    failed += 1
                    print(f"soak: seed {seed}: {wrong}; its files are in {room}/{seed}", flush=True)
            if sys.stderr.isatty():
                print(f"\rsoak: {tried} cases, {failed} failed", end="", file=sys.stderr, flush=True)
            if words.minutes and time.monotonic() > until:
                break
    print(f"soak: {tried} cases, {failed} failed")
    if not failed:
        shutil.rmtree(room)
    return 1 if failed else 0


if __name__ == "__main__":
    sys.exit(main())
