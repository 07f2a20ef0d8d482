"""Tries wrong programs: edits of a crate's code that the prover must refuse.

    gate/edits.py CRATE ..    tries all edits of these crates, over the libraries that `rt` has built here

Each run of the gate tries the edits of `must-fail/`, and with --whole also those of `wrong-programs/`, which have the same form.
The last line of an edit names the function that must lose its proof: `# refused by: CLAUSE of FUNCTION`, or `CLAUSE of CALLEE in
FUNCTION`. FUNCTION is the name as the prover prints it, or the end of that name. The prover checks that function and those that it
calls, over the libraries that `rt ci` has built. That takes seconds; a check of the whole crate takes minutes. The same functions of
the unchanged crate are proved before, by `rt ci` in a run of the gate and here in a call for some crates, so that an edit is refused
for its change alone.

Most of such a check is reading libraries. So one check tries several edits of a crate together, if each changes only the body of
the function that it names and no two name the same function. No proof of a function depends on the body of another one. An edit is
refused by such a check if its function has no proof for reasons of its own, and not only because it calls a function without a
proof. Any other edit is tried again, alone.
"""

import os
import re
import shutil
import subprocess
import sys
import tempfile
import threading
import time
from concurrent.futures import ThreadPoolExecutor
from typing import NamedTuple, Optional

from costs import seconds_by_part

KINDS = ["must-fail", "wrong-programs"]
LANES = min(4, len(os.sched_getaffinity(0)))
# No check starts beside another one with less free memory than this, in bytes.
LEAST_FREE = 6_000_000_000


class Edit(NamedTuple):
    """An edit: its crate; its path in the crate's folder; its changes, each a file, an old text and a new one; the function that must
    refuse it; and the fault that keeps it from being tried, or None."""

    crate: str
    path: str
    changes: list
    function: str
    fault: Optional[str]

    def __str__(self):
        return f"{self.crate}/{self.path}"


def text_of(path):
    with open(path, encoding="utf-8") as file:
        return file.read()


def last_of(function):
    """Returns the last part of a function's name."""
    return re.split(r"::|\.", function)[-1]


def steps(folder, edits):
    """Makes the changes of these edits in turn, in memory. Yields for each the file, the text before the old text, and the file's
    text after the change. Raises ValueError if the file does not contain the old text exactly once."""
    texts = {}
    for edit in edits:
        for file, old, new in edit.changes:
            text = texts.get(file) or text_of(f"{folder}/{file}")
            if text.count(old) != 1:
                raise ValueError(f"an old text must occur once in {file}, and occurs {text.count(old)} times")
            texts[file] = text.replace(old, new)
            yield file, text[: text.index(old)], texts[file]


def edited(folder, edits):
    """Returns the files that these edits change, each with its text after them."""
    return {file: text for file, _, text in steps(folder, edits)}


def is_within(folder, edit):
    """Returns whether the edit changes only the body of the function that it names."""
    return all(re.findall(r"\bfn (\w+)", before)[-1:] == [last_of(edit.function)] for _, before, _ in steps(folder, [edit]))


def read(folder, crate, path):
    """Returns the edit at that path of the crate's folder. It has a fault if it has an unknown line, no change, or an old text without
    a new one; if a file does not contain an old text exactly once; or if it names no function."""
    file, old, changes, function, fault = None, None, [], "", None
    for line in text_of(f"{folder}/{path}").splitlines():
        word, _, rest = line.partition(" ")
        if word == "file:":
            file = rest.strip()
        elif word == "old:" and file and old is None:
            old = rest
        elif word == "new:" and old is not None:
            changes.append((file, old, rest))
            old = None
        elif line.startswith("# refused by: "):
            function = line.split()[-1]
        elif not line.startswith("#"):
            fault = fault or f"unknown line: {line}"
    if not changes or old is not None:
        fault = fault or "it has no change, or an old text without a new one"
    if not function:
        fault = fault or "it does not name the function that refuses it"
    edit = Edit(crate, path, changes, function, fault)
    try:
        edited(folder, [edit])
    except ValueError as error:
        edit = edit._replace(fault=fault or str(error))
    return edit


def fits(folder, group, edit):
    """Returns whether the edit can be tried in one check with this group."""
    if not all(is_within(folder, it) for it in [*group, edit]) or last_of(edit.function) in {last_of(it.function) for it in group}:
        return False
    try:
        edited(folder, [*group, edit])
    except ValueError:
        return False
    return True


def groups_of(folder, edits):
    """Returns the edits in groups. Each group can be tried in one check."""
    groups = []
    for edit in edits:
        group = next((it for it in groups if fits(folder, it, edit)), None)
        if group:
            group.append(edit)
        else:
            groups.append([edit])
    return groups


def edits_of(root, crates, kinds):
    """Returns the edits of these kinds of all crates."""
    paths = [(name, kind) for name in crates for kind in kinds if os.path.isdir(f"{root}/crates/{name}/{kind}")]
    files = [(name, f"{kind}/{file}") for name, kind in paths for file in sorted(os.listdir(f"{root}/crates/{name}/{kind}"))]
    return [read(f"{root}/crates/{name}", name, path) for name, path in files if path.endswith(".edit")]


def free_memory():
    """Returns the free memory in bytes."""
    return 1024 * int(re.search(r"MemAvailable:\s+(\d+)", text_of("/proc/meminfo"))[1])


class Prover:
    """Has the prover check functions of crates, below a folder in which their libraries are built."""

    # The checks that are running, of all provers.
    running = set()

    def __init__(self, root):
        # The library of `rt` makes the command line of a crate's check.
        sys.path.insert(0, os.path.dirname(os.path.realpath(shutil.which("rt"))))
        import rtlib

        self.rt, self.crates = rtlib, {it.name: it for it in rtlib.crates_below(root)}

    def check(self, name, texts, functions, kept):
        """Checks these functions of the crate, with these texts in place of its own. Returns the exit status and the output. The check
        starts with the proofs in the folder `kept`, and adds its own to them."""
        crate = self.crates[name]
        while self.running and free_memory() < LEAST_FREE:
            time.sleep(1)
        with tempfile.TemporaryDirectory(prefix="gate-edit-") as room:
            for part in ["src", "specs", "proofs"]:
                if os.path.isdir(f"{crate.folder}/{part}"):
                    shutil.copytree(f"{crate.folder}/{part}", f"{room}/{part}")
            for path, text in texts.items():
                with open(f"{room}/{path}", "w", encoding="utf-8") as file:
                    file.write(text)
            flags = ["--jobs", "1", *[word for it in functions for word in ("--only", it)]]
            words = ["nice", "-n", "19", self.rt.RATTLE, "check", *crate.words(flags, keeps=False), "--incremental", kept]
            how = {"stdin": subprocess.DEVNULL, "stdout": subprocess.PIPE, "stderr": subprocess.STDOUT, "errors": "replace"}
            with subprocess.Popen(words, cwd=room, **how) as ran:
                self.running.add(ran)
                output = ran.communicate()[0]
                self.running.discard(ran)
        return ran.returncode, output

    @classmethod
    def stop(cls):
        for ran in list(cls.running):
            ran.kill()


def unproved(output):
    """Returns the functions that the prover's output reports without a proof, each with the reasons of its own. The list of reasons
    is empty if the function only calls another one without a proof."""
    found = re.findall(r"^fn (\S+): (?!proved|could not tell)(?:no proof: |not proved; )?(.*)", output, re.MULTILINE)
    return {name: [it for it in why.split("; ") if not it.startswith("it calls ")] for name, why in found}


def named_in(edit, functions):
    """Returns whether the edit names one of these functions."""
    return any(f"::{it}".endswith(f"::{edit.function}") for it in functions)


def refuses(edit, status, output):
    """Returns whether a check refuses the edit at the function that it names, and a message."""
    if status == 1 and output.rstrip().rpartition("\n")[2].startswith("only="):
        if named_in(edit, unproved(output)):
            return True, f"refused by {edit.function}"
        return False, f"NOT REFUSED by {edit.function}, but by {', '.join(unproved(output))}"
    return False, "NOT REFUSED" if status == 0 else f"NOT TRIED, the check's status is {status}: {output[-1000:]}"


def refuses_beside(edit, status, output):
    """Returns whether a check of several edits refuses this one, for its function's own reasons."""
    return refuses(edit, status, output)[0] and named_in(edit, [name for name, own in unproved(output).items() if own])


class Trials:
    """Tries edits in threads of its own, beside the proofs of the crates above and at the lowest priority. The edits of a crate are
    tried once it is proved as it stands. A context manager: leaving it early ends the running checks."""

    def __init__(self, edits, say):
        self.say, self.provers, self.of, self.pending, self.count = say, {}, {}, [], len(edits)
        self.waiting, self.lock, self.seconds = [], threading.Lock(), seconds_by_part()
        for edit in edits:
            self.of.setdefault(edit.crate, []).append(edit)

    def __enter__(self):
        self.room, self.lanes = tempfile.TemporaryDirectory(prefix="gate-edits-"), ThreadPoolExecutor(LANES)
        return self

    def __exit__(self, *_):
        self.lanes.shutdown(wait=False, cancel_futures=True)
        Prover.stop()
        self.lanes.shutdown()
        self.room.cleanup()

    def prover_of(self, root):
        """Returns the prover over the libraries that are built below the folder `root`."""
        self.provers[root] = self.provers.get(root) or Prover(root)
        return self.provers[root]

    def is_proved(self, root, name):
        """Returns whether the functions that the crate's edits name are proved as they stand, which a run of the gate knows."""
        functions = sorted({it.function for it in self.of[name]})
        status, output = self.prover_of(root).check(name, {}, functions, f"{self.room.name}/{name}")
        if status:
            self.say(f"{name}: not all functions that its edits name are proved in the unchanged crate: {output[-1000:]}")
        return not status

    def begin(self, root, name):
        """Starts to try the edits of this crate, which is proved as it stands."""
        edits = self.of.pop(name, None)
        if edits:
            self.waiting.append((self.prover_of(root), edits))
            self.pending.append(self.lanes.submit(self.try_next))

    def try_next(self):
        """Tries the edits of that crate, of those that wait, which takes longest by docs/COSTS.md. Returns how many are refused."""
        with self.lock:
            longest = max(self.waiting, key=lambda it: self.seconds.get((it[1][0].crate, "edits"), 0))
            self.waiting.remove(longest)
        return self.try_all(*longest)

    def try_all(self, prover, edits):
        """Tries the edits of a crate, in turn, each over what the checks before it have proved. Returns how many are refused."""
        name = edits[0].crate
        folder, kept = prover.crates[name].folder, f"{self.room.name}/{name}"
        groups, refused = groups_of(folder, edits), 0
        for group in groups:
            status, output = prover.check(name, edited(folder, group), [it.function for it in group], kept)
            if len(group) == 1:
                is_refused, message = refuses(group[0], status, output)
                self.say(f"{group[0]}: {message}")
                refused += is_refused
                continue
            for edit in group:
                if refuses_beside(edit, status, output):
                    self.say(f"{edit}: refused by {edit.function}")
                    refused += 1
                else:
                    # It is tried again, alone, after the others.
                    groups.append([edit])
        return refused

    def end(self):
        """Waits for all trials. Returns how many edits were refused, and how many not."""
        refused = sum(it.result() for it in self.pending)
        return refused, self.count - refused


def main():
    root, names = os.path.dirname(os.path.dirname(os.path.abspath(__file__))), sys.argv[1:]
    edits = edits_of(root, names, KINDS)
    faults = [f"{it}: {it.fault}" for it in edits if it.fault]
    if faults:
        print("\n".join(faults))
        return 1
    with Trials(edits, lambda text: print(text, flush=True)) as trials:
        for name in list(trials.of):
            if trials.is_proved(root, name):
                trials.begin(root, name)
        refused, others = trials.end()
    print(f"{refused} refused, {others} not")
    return 1 if others else 0


if __name__ == "__main__":
    sys.exit(main())
