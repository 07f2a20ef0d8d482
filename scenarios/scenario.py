"""A scenario: its files, the results of its commands, and the first difference from the expected results."""
import difflib
import os
import pathlib
import pty
import re
import resource
import signal
import subprocess
import time

HERE = pathlib.Path(__file__).resolve().parent
TOP = HERE.parent

# The endings of the words of a command that are files.
FILES = (".csv", ".svg")

# The marks of a command in `commands`: its scripts may be logged in any order; or it runs under a condition, or is large, and then
# needs a built program.
MARK = re.compile(r"(any order|no room|closed|(?:room|memory) \d+|interrupted|terminal|large): ")

# A further mark: the command is run once for each record of a list, possibly on a terminal.
EACH = re.compile(r"(terminal: )?each of (\S+): ")

# The record's placeholder in the words and files of such a command.
RECORD = "{record}"
# What the transcript shows after the words of a command with a mark.
SHOWN = {"terminal": "   # on a terminal", "no room": " > /dev/full", "closed": " | true", "interrupted": "   # and Ctrl-C", "room": "   # where files have room for {}", "memory": "   # with {} MB of memory"}


class Mistake(Exception):
    """A result differs from the expected one, or the scenario's files are wrong."""


# ---- Files ----------------------------------------------------------------------------------------------------


def lines_of(path):
    return path.read_bytes().decode("latin-1").split("\n")


def write_lines(path, lines):
    path.parent.mkdir(parents=True, exist_ok=True)
    path.write_bytes("\n".join(lines).encode("latin-1"))


def changed(records, changes):
    """Returns the records after the changes: `- RECORD` deletes a record, `+ RECORD` inserts one, and `  RECORD` marks the place of a
    record that stays."""
    after, at = [], 0
    for change in changes:
        mark, record = change[:2], change[2:]
        if mark == "+ ":
            after += each_record(record)
            continue
        if mark not in ("- ", "  ") or record not in records[at:]:
            raise Mistake(f"no such record to change: {change}")
        place = records.index(record, at)
        after += records[at:place] + ([record] if mark == "  " else [])
        at = place + 1
    return after + records[at:]


def each_record(record):
    """Returns the record, or one for each number if it contains `{FIRST..LAST}`."""
    numbers = re.search(r"\{(\d+)\.\.(\d+)\}", record)
    if numbers is None:
        return [record]
    before, after = record[: numbers.start()], record[numbers.end() :]
    return [f"{before}{number}{after}" for number in range(int(numbers[1]), int(numbers[2]) + 1)]


def changes_between(before, after):
    """Returns changes that turn the records `before` into the records `after`."""
    changes = []
    matcher = difflib.SequenceMatcher(None, before, after, autojunk=False)
    for kind, begin, end, new_begin, new_end in matcher.get_opcodes():
        if kind == "insert" and begin > 0:
            changes.append("  " + before[begin - 1])
        if kind != "equal":
            changes += ["- " + record for record in before[begin:end]]
            changes += ["+ " + record for record in after[new_begin:new_end]]
    if changed(before, changes) != after:
        raise Mistake("the places of the changes are not determined by their records")
    return changes


def read_file(scenario, name):
    """Returns the lines of a file of the scenario, of `datasets/` or of `examples/`; or those that NAME.changes makes of its dataset.

    Returns None if there is neither: a command writes the file, or shows that it is missing."""
    folder = {"datasets": HERE, "examples": TOP}.get(name.split("/")[0], scenario)
    if name.startswith("examples/out/"):
        return None
    if (folder / name).is_file():
        return lines_of(folder / name)
    changes = folder / (name + ".changes")
    if not changes.is_file():
        return None
    dataset, *lines = lines_of(changes)[:-1]
    return changed(read_file(scenario, dataset), lines)


# ---- Scenarios ------------------------------------------------------------------------------------------------


class Run:
    """One run of the program: its words, its mark, and its results. If it is one of the runs for a list, also the name of the list,
    the record, and the record's number from 1 on."""

    def __init__(self, line, records="", record=None, number=0):
        mark = MARK.match(line)
        self.mark = mark[1] if mark else ""
        self.any_order = self.mark == "any order"
        self.line = MARK.sub("", line, 1)
        self.words = [bytes_shown(word) for word in self.line.split()]
        self.records, self.record, self.number = records, record, number
        self.printed, self.messages, self.status = "", "", "status 0"

    def needs_program(self):
        return self.mark not in ("", "any order")

    def files(self):
        return [word for word in self.words if word.endswith(FILES)]

    def words_in(self, folder):
        return [str(folder / word) if word.endswith(FILES) else word for word in self.words]

    def carry_out(self, program, folder, seconds):
        """Runs the command with a built program. Ends it after so many seconds."""
        words = [word.encode("latin-1") for word in [program, *self.words_in(folder)]]
        more = {"cwd": folder, "stdout": subprocess.PIPE, "stderr": subprocess.PIPE}
        if self.mark == "no room":
            more["stdout"] = os.open("/dev/full", os.O_WRONLY)
        elif self.mark == "closed":
            read, more["stdout"] = os.pipe()
            os.close(read)
        elif self.mark.startswith("room"):
            room = int(self.mark.split()[1])
            more["preexec_fn"] = lambda: (signal.signal(signal.SIGXFSZ, signal.SIG_IGN), resource.setrlimit(resource.RLIMIT_FSIZE, (room, room)))
        elif self.mark.startswith("memory"):
            memory = int(self.mark.split()[1]) << 20
            more["preexec_fn"] = lambda: resource.setrlimit(resource.RLIMIT_AS, (memory, memory))
        elif self.mark == "interrupted":
            os.mkfifo(folder / "never.csv")
        elif self.mark == "terminal":
            master, more["stderr"] = pty.openpty()
        with subprocess.Popen(words, **more) as ran:
            if self.mark == "interrupted":
                self.interrupt(ran, folder)
            try:
                printed, messages = ran.communicate(timeout=seconds)
            except subprocess.TimeoutExpired:
                ran.kill()
                self.status = f"no end within {seconds} s"
                return
        if self.mark in ("no room", "closed"):
            os.close(more["stdout"])
        if self.mark == "terminal":
            os.close(more["stderr"])
            messages = read_terminal(master)
        self.printed, self.messages = (printed or b"").decode("latin-1"), messages.decode("latin-1")
        self.status = f"status {ran.returncode}"

    def interrupt(self, ran, folder):
        """Opens the pipe from which the program reads, and writes nothing. Sends Ctrl-C once the program has made its output files."""
        until, pipe = time.monotonic() + 60, None
        while pipe is None and ran.poll() is None and time.monotonic() < until:
            try:
                pipe = os.open(folder / "never.csv", os.O_WRONLY | os.O_NONBLOCK)
            except OSError:
                time.sleep(0.01)
        while not list(folder.rglob("*.tpcc-*")) and ran.poll() is None and time.monotonic() < until:
            time.sleep(0.01)
        ran.send_signal(signal.SIGINT)
        ran.wait(60)
        if pipe is not None:
            os.close(pipe)
        os.remove(folder / "never.csv")

    def take_files(self, scenario, folder):
        """Copies the files of the scenario that the words name. Replaces the record's placeholder in the words and in the files. A file
        that contains it is copied to a folder with the number of the record."""
        for place, name in enumerate(self.words):
            if self.record is not None and RECORD in name:
                self.words[place] = name.replace(RECORD, bytes_shown(self.record))
            if not name.endswith(FILES) or name.startswith("/"):
                continue
            lines = read_file(scenario, name)
            if self.record is not None and any(RECORD in line for line in lines or []):
                lines = [line.replace(RECORD, bytes_shown(self.record)) for line in lines]
                self.words[place] = name = f"{self.number}/{name}"
            (folder / name).parent.mkdir(parents=True, exist_ok=True)
            if lines is not None:
                write_lines(folder / name, lines)

    def row(self, folder):
        """Returns the results of a run for a record of a list, in one line."""
        lines = [line.replace(f"{folder}/", "").replace(f" {self.number}/", " ") for line in self.outcome()]
        return [f"{self.record}   -> {' / '.join(lines)}".rstrip()]

    def transcript(self, folder):
        """Returns the run as lines of a shell session. The runs for a list have the words once, and then a line each."""
        mark, _, number = self.mark.rpartition(" ") if self.mark.startswith(("room ", "memory ")) else (self.mark, "", "")
        shown = SHOWN.get(mark, "").format(number)
        if self.record is not None:
            head = [f"$ tpcc {self.line}   # with each of {self.records}{shown.replace('   #', ',')}"] if self.number == 1 else []
            return head + self.row(folder)
        words = "".join(it if " " <= it <= "~" else f"\\x{ord(it):02x}" for it in " ".join(self.words))
        return ["$ tpcc " + words + shown] + [line.replace(f"{folder}/", "") for line in self.outcome()]

    def outcome(self):
        """Returns the standard output, the messages on the standard error without the usage after them, and the status if it is not 0.
        `*` replaces what depends on the clock."""
        printed = self.printed.removesuffix("\n").split("\n") if self.printed else []
        kept = ("tpcc: ", "error: ", *(["  "] if self.mark == "terminal" else []))
        messages = re.sub(r"\r([^\r\n]* MB (read|written))(?=[\r\n])", r"\1\n", self.messages)
        messages = [line for line in messages.split("\n") if line.startswith(kept)]
        messages = [re.sub(r"[\d.]*\d(?= (s|requests|New-Orders|us)\b)", "*", line) if line.startswith("tpcc: time: ") else line for line in messages]
        lines = printed + ["! " + line for line in messages] + [self.status]
        if lines[-1] == "status 0":
            lines.pop()
        return lines


def bytes_shown(word):
    """Returns the word with each `\\x1b` replaced by the byte of that number."""
    return re.sub(r"\\x([0-9a-f]{2})", lambda it: chr(int(it[1], 16)), word)


def read_terminal(master):
    """Returns what was written to the terminal, with plain line ends."""
    written = b""
    while True:
        try:
            more = os.read(master, 4096)
        except OSError:
            more = b""
        if not more:
            os.close(master)
            return written.replace(b"\r\n", b"\n")
        written += more


def name_of(path):
    """Returns the name of the scenario in that folder, such as sim/full_inbox."""
    return f"{path.parent.name}/{path.name}"


def commands_of(path):
    """Returns how often the scenario is run (the N of its line `times N`, or 1), and its runs."""
    lines = [line for line in lines_of(path / "commands") if line and not line.startswith("#")]
    times = [int(line.split()[1]) for line in lines if line.startswith("times ")]
    return (times or [1])[0], [run for line in lines if not line.startswith("times ") for run in runs_of(path, line)]


def runs_of(path, line):
    """Returns the run of that line, or one run for each record of the list that it names."""
    each = EACH.match(line)
    if each is None:
        return [Run(line)]
    line = (each[1] or "") + line[each.end() :]
    return [Run(line, each[2], record, place + 1) for place, record in enumerate(lines_of(path / each[2])[:-1])]


class Scenario:
    """One run of a scenario, in a folder of its own with copies of all files that its commands name."""

    def __init__(self, path, folder):
        self.path, self.folder, self.name = path, folder, name_of(path)
        self.runs = commands_of(path)[1]
        folder.mkdir(parents=True)
        for run in self.runs:
            run.take_files(path, folder)

    def found(self):
        """Returns the names of the files in its folder."""
        return sorted(str(path.relative_to(self.folder)) for path in self.folder.rglob("*") if not path.is_dir())

    def expected_files(self):
        """Yields each file of the folder `expected` with each result of the same name, in whatever folder."""
        for path in sorted((self.path / "expected").glob("*")):
            if path.suffix == ".absent":
                continue
            named = [name for run in self.runs for name in run.files() if read_file(self.path, name) is None]
            wanted = path.name.removesuffix(".changes")
            written = sorted({name for name in [*named, *self.found()] if name.split("/")[-1] == wanted})
            if not written:
                raise Mistake(f"expected/{path.name}: no command names or leaves such a file")
            for name in written:
                yield path, self.folder / name

    def compare_names(self):
        """Raises a Mistake for the first file that should not exist."""
        absent = [path.name.removesuffix(".absent") for path in (self.path / "expected").glob("*.absent")]
        named = {name for run in self.runs for name in run.files()} | {path.name for path in (self.path / "expected").glob("*")}
        for name in self.found():
            if name.split("/")[-1] in absent:
                raise Mistake(f"{name} exists, and should not")
            if name not in named and name.split("/")[-1] not in named:
                raise Mistake(f"{name} was left, but neither a command nor `expected` names it")

    def compare(self):
        """Raises a Mistake for the first difference from the expected results."""
        found = [(line, run.any_order) for run in self.runs for line in run.transcript(self.folder)]
        differ("transcript", lines_of(self.path / "transcript")[:-1], found)
        for run in self.runs:
            if run.any_order:
                compare_places(run, self.folder)
        for path, written in self.expected_files():
            if not written.is_file():
                raise Mistake(f"{written.relative_to(self.folder)} was not written")
            wanted = read_file(self.path, f"expected/{path.name.removesuffix('.changes')}")
            name = f"{written.relative_to(self.folder)} (expected/{path.name})"
            differ(name, wanted, [(line, False) for line in lines_of(written)])
        self.compare_names()

    def accept(self):
        """Writes the results as the expected ones: the transcript, and the files that `expected` contains."""
        old = lines_of(self.path / "transcript") if (self.path / "transcript").is_file() else []
        lines = []
        for run in self.runs:
            for line in run.transcript(self.folder):
                wanted = old[len(lines)] if len(lines) < len(old) else ""
                if run.any_order and is_same(wanted, line, True):
                    line = wanted
                elif run.any_order:
                    line = re.sub(r"^(\d+,\d+,done),\d+,", r"\1,*,", line)
                lines.append(line)
        write_lines(self.path / "transcript", lines + [""])
        for path, written in self.expected_files():
            found = lines_of(written)
            if path.name.endswith(".changes"):
                dataset = lines_of(path)[0]
                found = [dataset] + changes_between(read_file(self.path, dataset), found) + [""]
            write_lines(path, found)


def is_same(wanted, found, any_order):
    """Returns whether the lines are the same. With `any_order` a wanted field `*` stands for any value."""
    if wanted == found or not any_order:
        return wanted == found
    fields = list(zip(wanted.split(","), found.split(",")))
    return wanted.count(",") == found.count(",") and all(field in ("*", other) for field, other in fields)


def differ(name, wanted, found):
    """Raises a Mistake for the first line in which the file differs."""
    end = "(the end of the file)"
    for number in range(max(len(wanted), len(found))):
        line = wanted[number] if number < len(wanted) else end
        other, any_order = found[number] if number < len(found) else (end, False)
        if not is_same(line, other, any_order):
            raise Mistake(f"{name}, line {number + 1}:\n  expected: {line}\n  found:    {other}")


def compare_places(run, folder):
    """Checks what holds in any order: the places of each session ascend, each answer is the log's entry at its place, and the log has
    no other entries. Raises a Mistake otherwise."""
    log = lines_of(folder / run.words[run.words.index("--log") + 1])
    done, last = 0, {}
    for answer in run.printed.splitlines():
        session, number, what, *rest = answer.split(",", 4)
        if what != "done":
            continue
        place, reply = int(rest[0]), rest[1]
        if place <= last.get(session, -1):
            raise Mistake(f"the places of session {session} do not ascend: {answer}")
        if not (log[place].startswith(f"{place},{session},{number},") and log[place].endswith("," + reply)):
            raise Mistake(f"an answer is not the entry at its place:\n  answer: {answer}\n  entry:  {log[place]}")
        done, last[session] = done + 1, place
    if log[done:] != [f"END,{done}", ""]:
        raise Mistake(f"{done} requests are answered done, but the log has another number of entries")
