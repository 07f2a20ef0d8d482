#!/usr/bin/env python3
"""Measures what reading and populating datasets cost, in turns with another program, and how large datasets are.

    python3 -B gate/datasets.py PROGRAM [--beside NAME CHECK POPULATE] [--warehouses 1,2,4] [--runs 5] [--record]

PROGRAM is `tpcc`. NAME is the name of the other program in the table. CHECK and POPULATE are its commands, in which `{file}`
stands for a dataset and `{warehouses}` for the number of warehouses. PROGRAM reads and writes datasets of format 2. The other
program reads and writes the same tables in format 1, and PROGRAM reads that file too. Reading is with a check of the twelve
conditions. Both programs write what they populate; the other's dataset must have the same tables.

The table has the least processor time of several runs, in the program and in the system together; the most memory of a process
(MB of 1,048,576 bytes); for one warehouse the instructions in the program, counted by callgrind if valgrind is installed; and the
bytes of a dataset for each warehouse. The last column is the ratio of the first program, with format 2, to the other one. With
--record the table is written into docs/COSTS.md.
"""

import argparse
import datetime
import filecmp
import os
import re
import shlex
import shutil
import subprocess
import sys
import tempfile

from first_format import write_in_format_1

COSTS = os.path.join(os.path.dirname(os.path.abspath(__file__)), os.pardir, "docs", "COSTS.md")
BEGIN = "<!-- written by gate/datasets.py --record: begin -->"
END = "<!-- written by gate/datasets.py --record: end -->"
MB = 1_048_576


def run(words):
    """Runs a command. Returns its processor seconds, and the most memory that it had, in bytes. Exits if the command fails."""
    quiet = subprocess.DEVNULL
    child = subprocess.Popen(words, stdin=quiet, stdout=quiet, stderr=quiet)
    _, status, used = os.wait4(child.pid, 0)
    if status != 0:
        sys.exit(f"{shlex.join(words)}: status {os.waitstatus_to_exitcode(status)}")
    return used.ru_utime + used.ru_stime, used.ru_maxrss * 1024


def instructions(words, folder):
    """Returns how many instructions a command takes, or None without valgrind."""
    if shutil.which("valgrind") is None:
        return None
    out = os.path.join(folder, "callgrind.out")
    words = ["valgrind", "--tool=callgrind", f"--callgrind-out-file={out}", *words]
    counted = subprocess.run(words, stdin=subprocess.DEVNULL, capture_output=True, text=True, check=True)
    return int(re.search(r"Collected : (\d+)", counted.stderr).group(1))


def compare(commands, runs):
    """Runs the commands in turns, each so many times. Returns for each the least seconds and the most bytes."""
    seen = [[] for _ in commands]
    for _ in range(runs):
        for command, results in zip(commands, seen):
            results.append(run(command))
    return [(min(r[0] for r in results), max(r[1] for r in results)) for results in seen]


def row(warehouses, work, unit, values, form):
    """Returns a row of the table: the values, of which some may be None, and the ratio of the first to the last."""
    first, *_, last = values
    cells = [form(value) if value is not None else "" for value in values]
    cells.append(f"{first / last:.2f}" if first is not None and last is not None else "")
    return f"| {warehouses} | {work} ({unit}) | " + " | ".join(cells) + " |"


def measured(warehouses, work, commands, runs, folder):
    """Returns the rows for these commands, of which some may be None."""
    given = [command for command in commands if command is not None]
    spread = lambda found: [next(found) if command is not None else None for command in commands]
    results = compare(given, runs)
    rows = [
        row(warehouses, work, "s", spread(iter(result[0] for result in results)), "{:.2f}".format),
        row(warehouses, work, "MB", spread(iter(result[1] / MB for result in results)), "{:.0f}".format),
    ]
    if warehouses == 1:
        counts = [instructions(command, folder) for command in given]
        billions = [count and count / 1e9 for count in counts]
        rows.append(row(warehouses, work, "10^9 instructions", spread(iter(billions)), "{:.2f}".format))
    return rows


def measure(program, beside, warehouses, runs):
    """Returns the rows of the table."""
    rows = []
    with tempfile.TemporaryDirectory() as folder:
        two, one, made, others = (os.path.join(folder, name) for name in ("two.csv", "one.csv", "made.csv", "others.csv"))
        for count in warehouses:
            run([program, "populate", two, "--warehouses", str(count)])
            write_in_format_1(two, one)
            fill = lambda command, file: shlex.split(command.format(file=file, warehouses=count))
            check, populate = (fill(beside[0], one), fill(beside[1], others)) if beside else (None, None)
            rows += measured(count, "reading", [[program, "check", two], [program, "check", one], check], runs, folder)
            ours = [program, "populate", made, "--warehouses", str(count)]
            rows += measured(count, "populating and writing", [ours, None, populate], runs, folder)
            if beside and not filecmp.cmp(one, others, shallow=False):
                sys.exit(f"{shlex.join(populate)}: its tables are not those that {shlex.join(ours)} makes")
            sizes = [os.path.getsize(path) / count / MB for path in (two, one)]
            rows.append(row(count, "a dataset, for each warehouse", "MB", [*sizes, sizes[1] if beside else None], "{:.1f}".format))
    return rows


def record(table):
    """Replaces the table in docs/COSTS.md."""
    with open(COSTS, encoding="utf-8") as file:
        text = file.read()
    start, end = text.index(BEGIN) + len(BEGIN), text.index(END)
    with open(COSTS, "w", encoding="utf-8") as file:
        file.write(text[:start] + "\n" + table + "\n" + text[end:])


def main():
    """Measures, prints the table, and with --record writes it into docs/COSTS.md."""
    parser = argparse.ArgumentParser(description=__doc__, formatter_class=argparse.RawDescriptionHelpFormatter)
    parser.add_argument("program")
    parser.add_argument("--beside", nargs=3, metavar=("NAME", "CHECK", "POPULATE"))
    parser.add_argument("--warehouses", default="1,2,4")
    parser.add_argument("--runs", type=int, default=5)
    parser.add_argument("--record", action="store_true")
    words = parser.parse_args()
    name, *beside = words.beside or ["Another program"]
    warehouses = [int(count) for count in words.warehouses.split(",")]
    head = f"| Warehouses | Work | Ours | Ours, format 1 | {name}, format 1 | Times |\n|---|---|---|---|---|---|"
    rows = measure(os.path.abspath(words.program), beside, warehouses, words.runs)
    commit = subprocess.run(
        ["git", "rev-parse", "--short=8", "HEAD"], capture_output=True, text=True, check=True, cwd=os.path.dirname(COSTS)
    ).stdout.strip()
    when = f"Measured on {datetime.date.today():%-d %B %Y}, at {commit}, the least of {words.runs} runs by turns."
    table = "\n".join([head, *rows, "", when])
    print(table)
    if words.record:
        record(table)


if __name__ == "__main__":
    main()
