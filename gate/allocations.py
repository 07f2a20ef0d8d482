"""Makes each allocation of the program fail in turn: gate/allocations.py PROGRAM

`tpcc run` and `tpcc sim` serve requests on small datasets, while warehouses move and while actions wait. Each command is run once
for each of its allocations, with that allocation refused. A run must end in one of these ways:

- Status 0. Each request is answered done, or refused for lack of memory (12) or as died (11). `replay` of the log prints `equal`
  and the number of done requests, and gives the tables that were written; `check` of them succeeds. A schedule ends with rounds,
  and these end quiet.
- Status 4 and `tpcc: no memory`, with a log. The answers and the log are as above, and the tables may be missing. At least one run
  of each command must end so, for lack of memory for the tables.
- Status 4 and `tpcc: no memory`, without a log. No answer is printed and no file is left; or the whole log is left under its
  temporary name.
- Status 1 and `tpcc: no thread`, from `tpcc run`. No file is left.

`tpcc migrate` is run in the same way on a small dataset of format 1. A run of it must end with status 0 and the tables in format 2, or
with status 4, `tpcc: no memory` and no file. At least one must end with the latter.

The sweep ends with the first run that makes too few allocations to be refused one. In the sweep over one payment, exactly one run
must print what is printed if the log has no memory for the payment's entry.
"""

import os
import shutil
import subprocess
import sys
import tempfile
from concurrent.futures import ThreadPoolExecutor
from itertools import count

from first_format import write_in_format_1

ROOT = os.path.dirname(os.path.dirname(os.path.abspath(__file__)))
POPULATION = ["--warehouses", "1", "--items", "10", "--customers", "3"]
MOMENT = "2024-05-01T12:00:00"
# A payment by number, a query of a customer's last order, a payment by last name, a payment that is rolled back, an order whose
# second line takes from the same row of stock as its first, an order of an unknown item, an order of thirty lines, and a query of low
# stock.
REQUESTS = [
    f"P,1,1,1,1,#1,100,{MOMENT}",
    "O,1,1,BARBARBAR",
    f"P,1,2,1,1,BARBARBAR,200,{MOMENT}",
    f"P,1,1,1,1,#9,100,{MOMENT}",
    f"N,1,1,1,{MOMENT},1,1,5,1,1,6,2,1,1,3,1,2,4,1,3",
    f"N,1,1,2,{MOMENT},1,1,5,2,1,6,3,1,1,4,1,2,11,1,3",
    f"N,1,2,3,{MOMENT},{','.join(f'{line % 10 + 1},1,{line % 7 + 1}' for line in range(30))}",
    "L,1,1,20",
]
# A delivery of a warehouse, as in a script, where it is ten requests; and one of a district, as in a schedule.
OF_WAREHOUSE, OF_DISTRICT, DISTRICTS = f"D,1,7,{MOMENT}", f"D,1,1,7,{MOMENT}", 10
# Schedules on the two warehouses of the examples, each with its number of executors and of requests: an action of an order waits for
# a younger reader; a delivery waits for an order, which dies; messages follow a warehouse there and back.
SCHEDULES = [("sim/new_order_waits", 1, 2), ("sim/delivery_waits", 1, 2), ("moves/messages_follow", 2, 1)]
PAYMENT = f"P,1,1,1,1,#1,100,{MOMENT}"
ORDER = f"N,1,1,1,{MOMENT},1,1,5,2,1,6,3,1,1,4,1,2,5,1,3"
# What `tpcc sim` prints for the events of examples/one-payment.csv, followed by rounds, if the log has no memory for the entry.
UNLOGGED = "accepted,0 took sent sent took took sent sent sent took sent sent answered,0,0,refused,12 sent sent sent took took took sent sent sent quiet".split()
# The temporary name under which the log is written.
OTHER_NAME = "log.csv.tpcc-0"
AT_ONCE = 4 * (os.cpu_count() or 1)


def write(path, records):
    with open(path, "w", encoding="utf-8") as file:
        file.write("".join(f"{it}\n" for it in records))


def read(path):
    """Returns the text of a file, or an empty string if there is no file."""
    if not os.path.exists(path):
        return ""
    with open(path, encoding="utf-8") as file:
        return file.read()


def has_a_log(folder):
    """Returns whether there is a log under its own name."""
    return os.path.exists(f"{folder}/log.csv")


def has_kept_its_log(command, ends):
    """Returns whether a run without memory for its tables left a log. `ends` has for each run in turn what `Sweep.one` returns of its
    log. `tpcc sim` makes the tables before it writes the log and prints the first record, which takes memory too. So a later run of
    it must end without a log."""
    return True in ends and (command == "run" or False in ends[ends.index(True) :])


def library(room, name):
    """Builds the library `gate/NAME.c` with the toolchain's clang. Returns its path."""
    output = subprocess.run(["rt", "doc"], stdout=subprocess.PIPE, text=True, check=True).stdout
    tools, built = f"{os.path.dirname(output.strip())}/toolchain/bin", f"{room}/{name}.so"
    words = ["--target=x86_64-unknown-linux-gnu", "-shared", "-fPIC", "-O1", "-nostdlib", f"-fuse-ld={tools}/ld.lld"]
    subprocess.run([f"{tools}/clang", *words, f"{ROOT}/gate/{name}.c", "-o", built], check=True)
    return built


class Sweep:
    """The runs of one command, each in a folder of its own. If records are sought, exactly one run must print just these."""

    def __init__(self, program, room, refuser, command, inputs, requests, sought=None):
        self.program, self.room, self.refuser, self.requests = program, room, refuser, requests
        self.sought, self.found = sought, []
        self.dataset = inputs[0]
        self.words = [command, *inputs, "--log", "log.csv", "--tables", "tables.csv"]
        self.command = command

    def call(self, folder, *words, **more):
        return subprocess.run([self.program, *words], cwd=folder, capture_output=True, text=True, check=False, **more)

    def one(self, number):
        """Runs the command with this allocation refused. Returns whether the run made so many allocations; whether it left a log, if
        it ended with status 4, or else None; and what is wrong with it, or None.
        """
        folder = f"{self.room}/{self.command}-{number}"
        os.mkdir(folder)
        mark = f"{folder}/refused"
        more = {"LD_PRELOAD": self.refuser, "REFUSE_ALLOCATION": str(number), "REFUSED_FILE": mark}
        ran = self.call(folder, *self.words, env={**os.environ, **more})
        wrong = self.fault(folder, ran)
        if self.sought and ran.stdout.splitlines() == self.sought:
            self.found.append(number)
        was_refused = os.path.exists(mark)
        has_log = has_a_log(folder) if ran.returncode == 4 else None
        shutil.rmtree(folder)
        return was_refused, has_log, wrong

    def fault(self, folder, ran):
        """Returns what is wrong with the end of a run, or None."""
        if ran.returncode == 4 and ran.stderr == "tpcc: no memory\n":
            return self.answered(folder, ran, False) if has_a_log(folder) else self.refused(folder, ran)
        if ran.returncode == 1 and ran.stderr == "tpcc: no thread\n" and self.command == "run":
            return "a log though no thread was started" if self.left(folder) else None
        if ran.returncode != 0:
            return f"status {ran.returncode}, {ran.stderr.strip() or 'no message'}"
        return self.answered(folder, ran, True)

    def answered(self, folder, ran, has_tables):
        """Returns what is wrong with the answers and the log of a run that left a log, or None."""
        if any(".tpcc-" in name for name in self.left(folder)):
            return f"files left under temporary names: {self.left(folder)}"
        answers = self.answers(ran.stdout)
        bad = [it for it in answers if it[0] != "done" and it[:2] not in (["refused", "11"], ["refused", "12"])]
        if bad or len(answers) != self.requests:
            return f"answers: {answers}"
        if self.command == "sim" and not ran.stdout.endswith("\nquiet\n"):
            return f"the last rounds do not end quiet: {ran.stdout.splitlines()[-1:]}"
        return self.replayed(folder, sum(it[0] == "done" for it in answers), has_tables)

    def answers(self, printed):
        """Returns the fields of each printed answer that follow its session and number."""
        records = [line.split(",") for line in printed.splitlines()]
        if self.command == "sim":
            return [it[3:] for it in records if it[0] == "answered"]
        return [it[2:] for it in records]

    def left(self, folder):
        """Returns the names of the files that the command has left."""
        return sorted(set(os.listdir(folder)) - {"refused"})

    def refused(self, folder, ran):
        """Returns what is wrong with a run that left no log, or None. It must print no answer and leave no file, or leave the whole log
        under its temporary name."""
        left = self.left(folder)
        if left == [OTHER_NAME]:
            replay = self.call(folder, "replay", self.dataset, OTHER_NAME)
            return None if replay.returncode == 0 else f"the log under its temporary name is not whole: {replay.stdout.strip() or replay.stderr.strip()}"
        return f"no log, but printed {ran.stdout.strip()!r} and left {left}" if left or ran.stdout else None

    def replayed(self, folder, done, has_tables):
        """Returns what is wrong with the replay of the log, or None. It must be equal, with as many entries as requests were done, and
        give the tables that were written, if any."""
        ran = self.call(folder, "replay", self.dataset, "log.csv", "--tables", "replayed.csv")
        if ran.stdout != f"equal {done}\n":
            return f"{done} done, but replay prints {ran.stdout.strip() or ran.stderr.strip()}"
        if has_tables and read(f"{folder}/tables.csv") != read(f"{folder}/replayed.csv"):
            return "the tables are not those of the replay"
        ran = self.call(folder, "check", "replayed.csv")
        return None if ran.returncode == 0 else f"check prints {ran.stdout.strip()}"

    def whole(self):
        """Refuses each allocation in turn. Returns whether every run ended as it must."""
        well, ends = True, []
        with ThreadPoolExecutor(AT_ONCE) as pool:
            for first in count(1, AT_ONCE):
                numbers = range(first, first + AT_ONCE)
                for number, (was_refused, has_log, wrong) in zip(numbers, pool.map(self.one, numbers)):
                    if wrong:
                        print(f"allocations: tpcc {self.command}, allocation {number} refused: {wrong}")
                        well = False
                    ends.append(has_log)
                    if not was_refused:
                        missing = self.missing(ends)
                        if missing:
                            print(f"allocations: tpcc {self.command}: {missing}")
                        print(f"allocations: tpcc {self.command}: each of {number - 1} allocations refused in turn", flush=True)
                        return well and not missing

    def missing(self, ends):
        """Returns which end of a run is missing in all these ends, or None."""
        if not has_kept_its_log(self.command, ends):
            return "no run without memory for its tables left a log"
        if self.sought and len(self.found) != 1:
            return f"{len(self.found)} runs print what one must print"
        return None


class Migrations(Sweep):
    """The runs of `tpcc migrate` on a dataset, which must give the text of another one."""

    def __init__(self, program, room, refuser, dataset, wanted):
        super().__init__(program, room, refuser, "migrate", [dataset], 0)
        self.words, self.wanted = ["migrate", dataset, "new.csv"], read(wanted)

    def fault(self, folder, ran):
        if ran.returncode == 4 and ran.stderr == "tpcc: no memory\n":
            return f"no memory, but left {self.left(folder)}" if self.left(folder) else None
        if ran.returncode != 0:
            return f"status {ran.returncode}, {ran.stderr.strip() or 'no message'}"
        is_well = self.left(folder) == ["new.csv"] and read(f"{folder}/new.csv") == self.wanted
        return None if is_well else f"status 0, but left {self.left(folder)}, or other tables"

    def missing(self, ends):
        return None if False in ends else "no run ended for lack of memory"


def schedule_of(scenario, room):
    """Writes the schedule of a scenario, followed by rounds, to a file, and returns its path."""
    path, records = f"{room}/{os.path.basename(scenario)}.csv", read(f"{ROOT}/scenarios/{scenario}/schedule.csv").splitlines()[:-1]
    write(path, [*records, "R", f"END,{len(records) + 1}"])
    return path


def sweeps_of(program, room, refuser):
    """Returns the sweeps, over files that it writes to this folder."""
    dataset, first, two = f"{room}/dataset.csv", f"{room}/first.csv", f"{ROOT}/examples/two-warehouses.csv"
    subprocess.run([program, "populate", dataset, *POPULATION], check=True)
    write_in_format_1(dataset, first)
    files = {
        "all-kinds": [*REQUESTS, OF_WAREHOUSE],
        "payment": [PAYMENT],
        "order": [ORDER],
        # With each request the warehouse moves to the other executor.
        "schedule": [it for number, request in enumerate([*REQUESTS, OF_DISTRICT]) for it in (f"S,0,{number},{request}", f"M,1,1,{(number + 1) % 2}", "R")],
        "events": [*read(f"{ROOT}/examples/one-payment.csv").splitlines()[:-1], "R"],
        "moves": ["1,1,1", "1,1,0", "1,1,1"],
        "move": ["1,2,1"],
    }
    paths = {name: f"{room}/{name}.csv" for name in files}
    for name, records in files.items():
        write(paths[name], [*records, f"END,{len(records)}"])
    sweep = lambda *words: Sweep(program, room, refuser, *words)
    return [
        sweep("run", [dataset, *[paths["all-kinds"]] * 2, "--moves", paths["moves"]], 2 * (len(REQUESTS) + DISTRICTS)),
        sweep("run", [two, *[paths["payment"]] * 4], 4),
        sweep("run", [two, *[paths["order"]] * 16, "--moves", paths["move"]], 16),
        sweep("sim", [dataset, paths["schedule"]], len(REQUESTS) + 1),
        sweep("sim", [two, paths["events"], "--executors", "1"], 1, UNLOGGED),
        *[
            sweep("sim", [two, schedule_of(name, room), "--executors", str(executors), "--locks"], requests)
            for name, executors, requests in SCHEDULES
        ],
        Migrations(program, room, refuser, first, dataset),
    ]


def main():
    program = os.path.abspath(sys.argv[1])
    with tempfile.TemporaryDirectory(prefix="gate-allocations-") as room:
        return 0 if all([it.whole() for it in sweeps_of(program, room, library(room, "refuse_allocation"))]) else 1


if __name__ == "__main__":
    sys.exit(main())
