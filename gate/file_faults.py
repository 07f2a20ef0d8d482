"""Cuts the files that the program reads, and makes its reads and writes fail: gate/file_faults.py PROGRAM

- A dataset of either format that is cut after any record, or within the first one of each table, is a fault of the record at the cut. If
  what is left of this record is a record too, the fault is that the end record is missing (7). No tables are written.
- A read that fails, in a dataset, a script, a schedule or a log, is fault 10 of the record that was being read.
- A write that fails leaves the first bytes of what was to be printed, all that were written before, and is fault 10.
"""

import os
import re
import subprocess
import sys
import tempfile
from concurrent.futures import ThreadPoolExecutor

from allocations import AT_ONCE, MOMENT, library, read, write

ROOT = os.path.dirname(os.path.dirname(os.path.abspath(__file__)))
DATASET = f"{ROOT}/examples/two-warehouses.csv"
FIRST_FORMAT = f"{ROOT}/examples/two-warehouses-of-format-1.csv"
EVENTS = f"{ROOT}/examples/one-payment.csv"
FAULT = re.compile(r"tpcc: (.*): row (\d+): fault (\d+)\n")
# How many bytes a read and a write move at most where one of them is to fail.
READ_BYTES, WRITE_BYTES = 97, 7
# The numbers of the files that a command opens: its first file, its second one, and the standard output.
FIRST, SECOND, PRINTED = 3, 4, 1


def is_record(cut, record):
    """Returns whether the first bytes of a record are a record without a fault. A number or a text may be shorter, and an order may have
    fewer lines."""
    letter, *fields = cut.split(",")
    if cut == record or letter in ("", "TPCC", "END"):
        return cut == record != ""
    if letter == "O":
        behind = len(fields) - 8
        return behind == 0 and fields[7] != "" or behind > 0 and behind % 7 == 0
    # Records with these letters end with a text, which may be empty.
    return len(fields) == record.count(",") and (fields[-1] != "" or letter in "ISCHL")


class Trials:
    """Runs of the program on files in a folder. Prints what is wrong."""

    def __init__(self, program, room):
        self.program, self.room, self.well = program, room, True
        self.failing = library(room, "fail_io")

    def call(self, *words, **settings):
        names = {"file": "FAIL_FILE", "bytes": "FAIL_BYTES", "at": "FAIL_AT"}
        more = {"LD_PRELOAD": self.failing, **{names[name]: str(value) for name, value in settings.items()}} if settings else {}
        return subprocess.run([self.program, *words], cwd=self.room, capture_output=True, text=True, check=False, env={**os.environ, **more})

    def expect(self, is_well, what, ran):
        if not is_well:
            print(f"file_faults: {what}: status {ran.returncode}, {ran.stderr.strip()!r}")
            self.well = False

    def fault_of(self, ran):
        """Returns the path, the record and the number of the fault with which a run ended, or None."""
        found = FAULT.fullmatch(ran.stderr)
        return (found[1], int(found[2]), int(found[3])) if found and ran.returncode == 1 else None

    # ---- files that are cut

    def cut(self, text, end):
        """Reads the first bytes of a dataset's text, and has its tables written."""
        path, tables = f"{self.room}/cut-{end}.csv", f"{self.room}/tables-{end}.csv"
        with open(path, "w", encoding="utf-8") as file:
            file.write(text[:end])
        ran = self.call("replay", path, f"{self.room}/no-entries.csv", "--tables", tables)
        start = text.rindex("\n", 0, end) + 1 if "\n" in text[:end] else 0
        begun, is_one = text[:end].count("\n"), is_record(text[start:end], text[start:].split("\n")[0])
        fault = self.fault_of(ran)
        wanted = (path, begun + 2, 7) if is_one else (path, begun + 1)
        is_well = fault is not None and fault[: len(wanted)] == wanted and not os.path.exists(tables)
        self.expect(is_well, f"a dataset of {text.count(chr(10))} records cut after {end} bytes", ran)
        os.remove(path)

    def cuts(self, path):
        """Cuts the dataset before and after each end of a record, and after each byte of the first record of each letter and of the
        first order without a carrier."""
        text = read(path)
        ends, seen, place = set(), set(), 0
        for record in text.splitlines():
            kind = (record.split(",")[0], record.startswith("O,") and record.split(",")[6] == "")
            ends |= {place + len(record), place + len(record) + 1}
            if kind not in seen:
                ends |= set(range(place, place + len(record)))
            seen.add(kind)
            place += len(record) + 1
        # With its last line feed, or without it, the dataset is whole.
        ends -= {len(text) - 1, len(text)}
        with ThreadPoolExecutor(AT_ONCE) as pool:
            list(pool.map(lambda end: self.cut(text, end), sorted(ends)))
        print(f"file_faults: {os.path.basename(path)} was cut at {len(ends)} places", flush=True)

    # ---- reads that fail

    def read_fails(self, path, number, words, at):
        """Makes a read of this file fail."""
        ran = self.call(*words, file=number, bytes=READ_BYTES, at=at)
        records = read(path)[: READ_BYTES * (at - 1)].count("\n")
        self.expect(self.fault_of(ran) == (path, records + 1, 10), f"{words[0]}, read {at} of {os.path.basename(path)} fails", ran)

    def reads(self, path, number, *words):
        """Makes each read of this file fail in turn."""
        count = (os.path.getsize(path) + READ_BYTES - 1) // READ_BYTES + 1
        with ThreadPoolExecutor(AT_ONCE) as pool:
            list(pool.map(lambda at: self.read_fails(path, number, words, at), range(1, count + 1)))
        print(f"file_faults: tpcc {words[0]}: each of {count} reads of {os.path.basename(path)} failed in turn", flush=True)

    # ---- writes that fail

    def write_fails(self, words, whole, at):
        """Makes a write of what the command prints fail."""
        ran = self.call(*words, file=PRINTED, bytes=WRITE_BYTES, at=at)
        fault = self.fault_of(ran)
        is_well = fault is not None and fault[0] == "-" and fault[2] == 10 and ran.stdout == whole[: WRITE_BYTES * (at - 1)]
        self.expect(is_well, f"{words[0]}, write {at} fails", ran)

    def writes(self, *words):
        """Makes each write of what the command prints fail in turn."""
        whole = self.call(*words).stdout
        count = (len(whole) + WRITE_BYTES - 1) // WRITE_BYTES
        with ThreadPoolExecutor(AT_ONCE) as pool:
            list(pool.map(lambda at: self.write_fails(words, whole, at), range(1, count + 1)))
        print(f"file_faults: tpcc {words[0]}: each of {count} writes failed in turn", flush=True)


def main():
    program = os.path.abspath(sys.argv[1])
    with tempfile.TemporaryDirectory(prefix="gate-file-faults-") as room:
        trials = Trials(program, room)
        none, script, log = f"{room}/no-entries.csv", f"{room}/script.csv", f"{room}/log.csv"
        write(none, ["END,0"])
        write(script, [*[f"P,1,1,1,1,#1,{100 + number},{MOMENT}" for number in range(20)], "END,20"])
        ran = trials.call("run", DATASET, script, "--log", log, "--quiet")
        trials.expect(ran.returncode == 0, "a script that is served", ran)
        trials.cuts(DATASET)
        trials.cuts(FIRST_FORMAT)
        trials.reads(DATASET, FIRST, "check", DATASET)
        trials.reads(FIRST_FORMAT, FIRST, "check", FIRST_FORMAT)
        trials.reads(script, SECOND, "run", DATASET, script)
        trials.reads(EVENTS, SECOND, "sim", DATASET, EVENTS)
        trials.reads(log, SECOND, "replay", DATASET, log)
        trials.writes("sim", DATASET, EVENTS)
        trials.writes("run", DATASET, script)
        return 0 if trials.well else 1


if __name__ == "__main__":
    sys.exit(main())
