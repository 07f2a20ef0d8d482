#!/usr/bin/env python3
"""Runs scenarios with the program `tpcc`, and compares what it prints and writes with the expected results.

    ./dev scenarios [--program PATH] [--accept] [NAME ...]

A name is that of a scenario, such as sim/full_inbox, or that of a folder, such as sim, for all scenarios in it. Without
names all scenarios are run.

Without `--program` the program is first built without its proofs, which takes a minute or two on a free machine. This
program is slow, so each scenario is run once, even if its `commands` has a line `times N`. One scenario takes a few
minutes at most, except for the long lists in scenarios/faults/. Because of these, all scenarios take over an hour.

scenarios/README.md describes the files of a scenario.
"""
import argparse
import pathlib
import re
import signal
import subprocess
import sys
import tempfile

sys.dont_write_bytecode = True
from scenario import HERE, TOP, Mistake, Scenario, commands_of, lines_of, name_of, write_lines  # noqa: E402

DOCUMENTS = [TOP / "README.md", *sorted((TOP / "docs").glob("*.md")), TOP / "examples" / "README.md"]

# How a command in a document begins.
DOCUMENTED = "crates/tpcc/out/tpcc "

# The time limit of a command. It is long because other work may leave the command little of a processor.
MOST_SECONDS = 600


def say(text):
    print("scenarios: " + text, flush=True)


# ---- The program ----------------------------------------------------------------------------------------------


def run_program(program, scenarios):
    """Runs all commands with this program."""
    for scenario in scenarios:
        for run in scenario.runs:
            run.carry_out(program, scenario.folder, MOST_SECONDS)


def run_unproved(scenarios, folder):
    """Builds the program without its proofs, and runs all commands with it, in turn."""
    runs = {}
    (folder / "cases").mkdir()
    for scenario in scenarios:
        for run in scenario.runs:
            case = f"{len(runs):05}"
            runs[case] = run
            write_lines(folder / "cases" / case, [])
            write_lines(folder / "cases" / f"{case}.args", run.words_in(scenario.folder) + [""])
    say("building the program without its proofs, which takes a minute or two on a free machine")
    words = ["rt", "try", "--seconds", str(MOST_SECONDS), "--cases", str(folder / "cases")]
    with open(folder / "printed", "wb") as printed:
        building = subprocess.Popen(words, cwd=TOP / "crates" / "tpcc", stdout=printed, stderr=subprocess.PIPE)
        messages, ended = [], 0
        for line in building.stderr:
            messages.append(line.decode("latin-1"))
            case = re.match(r"case=(\d+) run=(\S+)(?: (status)=(\d+))?", messages[-1])
            if case is None:
                continue
            run = runs[case[1]]
            run.messages = "".join(messages[:-1])
            run.status = f"status {case[4]}" if case[2] == "ended" else messages[-1].rstrip("\n")
            messages, ended = [], ended + 1
            if ended % 100 == 0:
                say(f"{ended} of {len(runs)} commands have run")
        building.wait()
    if ended != len(runs):
        sys.exit("scenarios: not all commands were run:\n" + "".join(messages))
    for line in (folder / "printed").read_bytes().decode("latin-1").splitlines(keepends=True):
        if line.startswith("== "):
            run = runs[line[3:].rstrip("\n")]
        else:
            run.printed += line


# ---- The scenarios --------------------------------------------------------------------------------------------


def names_of(path):
    """Returns the names that select a scenario: its own, and that of the folder around it."""
    return {name_of(path), path.parent.name}


def missing_commands(paths):
    """Yields a message for each command of a document that no scenario runs."""
    known = {" ".join(run.words) for path in paths for run in commands_of(path)[1]}
    for document in DOCUMENTS:
        for line in lines_of(document):
            if line.startswith(DOCUMENTED) and line.removeprefix(DOCUMENTED) not in known:
                yield f"{document.relative_to(TOP)} contains a command that no scenario runs: {line}"


def main():
    purpose = (
        "Runs scenarios, and compares the results with the expected ones. Without --program one scenario takes a few minutes "
        "at most, except for the long lists in scenarios/faults/; because of these, all scenarios take over an hour."
    )
    parser = argparse.ArgumentParser(prog="dev scenarios", description=purpose)
    parser.add_argument("--program", metavar="PATH", help="a built program; without it the program is built without proofs")
    parser.add_argument("--accept", action="store_true", help="write the results of the named scenarios as the expected ones")
    named = "a scenario, such as sim/full_inbox, or a folder of scenarios, such as sim; without names all are run"
    parser.add_argument("names", metavar="NAME", nargs="*", type=lambda name: name.rstrip("/"), help=named)
    settings = parser.parse_args()
    # A shell that starts this in the background makes it ignore Ctrl-C, and the program that this starts would inherit that.
    signal.signal(signal.SIGINT, signal.default_int_handler)
    paths = sorted(path.parent for path in HERE.glob("*/*/commands"))
    unknown = set(settings.names) - {name for path in paths for name in names_of(path)}
    if unknown or settings.accept and not settings.names:
        parser.error(f"no such scenario: {', '.join(sorted(unknown))}" if unknown else "--accept takes names")
    if settings.program and not pathlib.Path(settings.program).is_file():
        parser.error(f"no such program: {settings.program}")
    chosen = [path for path in paths if not settings.names or names_of(path) & set(settings.names)]
    if not settings.program:
        left = [path for path in chosen if any(run.needs_program() for run in commands_of(path)[1])]
        chosen = [path for path in chosen if path not in left]
        for path in left:
            say(f"{name_of(path)} is left out, since it needs a built program (--program)")

    with tempfile.TemporaryDirectory(prefix="scenarios-") as room:
        room = pathlib.Path(room)
        scenarios, failed = [], {}
        for path in chosen:
            for time in range(commands_of(path)[0] if settings.program else 1):
                try:
                    scenarios.append(Scenario(path, room / name_of(path) / str(time)))
                except Mistake as mistake:
                    failed[name_of(path)] = mistake
        say(f"{len(chosen)} scenarios, {sum(len(scenario.runs) for scenario in scenarios)} runs of the program")
        if settings.program:
            run_program(str(pathlib.Path(settings.program).resolve()), scenarios)
        else:
            run_unproved(scenarios, room)

        for scenario in scenarios:
            try:
                scenario.accept() if settings.accept else scenario.compare()
            except (Mistake, OSError, ValueError, IndexError) as mistake:
                failed.setdefault(scenario.name, mistake)
    for name, mistake in failed.items():
        say(f"{name}: {mistake}")
    missing = list(missing_commands(paths))
    for message in missing:
        say(message)
    if failed or missing:
        say(f"{len(failed)} of {len(chosen)} scenarios failed")
        sys.exit(1)
    say(f"all {len(chosen)} scenarios gave the expected results")


if __name__ == "__main__":
    main()
