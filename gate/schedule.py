"""Runs `rt ci` in the current folder, with the words that follow, on a schedule of its own.

`rt ci` decides once, when a proof starts, how many processors the proof gets, and it reserves more memory than a check takes. So the
longest proof, which starts beside others, gets one processor, and others are idle meanwhile. Here a task starts when everything that
it waits for has ended. The longer the chain of tasks behind it, the higher its priority and the more processors it may use. Nothing
else changes: the checks, what each waits for, and the verdict are those of `rt ci`.
"""

import importlib.machinery
import importlib.util
import os
import queue
import shutil
import sys
import threading

from costs import seconds_by_part
from edits import free_memory

# The part of the memory that `rt ci` reserves for a check that the check takes, about.
OF_ESTIMATE = 0.5
# Each further job of a check takes this part of what its first job takes.
OF_FIRST_JOB = 0.3
# After how many seconds a task that lacked memory is tried again.
RETRY = 10
# The least priority of a task, as `nice` counts. The task with the longest chain behind it has 0, one with half of that chain has this.
LEAST = 10
# What a task counts that docs/COSTS.md does not list, in processor seconds.
UNLISTED = 600
# No task starts beside another one with less free memory than this, in bytes.
LEAST_FREE = 3_000_000_000


def load_rt():
    """Returns `rt` as a module."""
    path = os.path.realpath(shutil.which("rt"))
    loader = importlib.machinery.SourceFileLoader("rt", path)
    rt = importlib.util.module_from_spec(importlib.util.spec_from_loader("rt", loader))
    sys.modules["rt"] = rt
    loader.exec_module(rt)
    return rt


def chains(tasks):
    """Returns for each task the processor seconds of the longest chain of tasks that begins with it. A task comes after those that it
    waits for. A task without lines has nothing to do."""
    known, lengths = seconds_by_part(), dict.fromkeys(tasks, 0)
    for task, (waits_for, lines, _, _) in reversed(tasks.items()):
        name, part = task
        lengths[task] += known.get((name, "proofs" if part == "proof" else part), UNLISTED) if lines else 0
        for it in waits_for:
            lengths[it] = max(lengths[it], lengths[task])
    return lengths


def in_order(tasks):
    """Runs the tasks, and returns what each gave. A task is what it waits for, its lines, its memory, and a call that gets what was
    given and how many jobs it may use."""
    processors, lengths = len(os.sched_getaffinity(0)), chains(tasks)
    left, running, given, ended = sorted(tasks, key=lambda it: -lengths[it]), {}, {}, queue.Queue()
    room = 0.85 * free_memory()

    def run(task, jobs, priority):
        os.setpriority(os.PRIO_PROCESS, threading.get_native_id(), priority)
        try:
            result = tasks[task][3](given, jobs)
        except BaseException as error:
            result = error
        ended.put((task, result))

    def start(task):
        """Starts the task unless memory or processors are lacking."""
        longest = max(1, *(lengths[it] for it in [*left, *running]))
        priority = round(2 * LEAST * (1 - lengths[task] / longest))
        is_urgent = priority < LEAST
        first = OF_ESTIMATE * tasks[task][2]
        free = room - sum(running.values())
        most = processors if priority < LEAST / 2 else 2 if is_urgent else 1
        jobs = max(1, min(most, int(1 + (free / first - 1) / OF_FIRST_JOB)))
        needs = first * (1 + OF_FIRST_JOB * (jobs - 1))
        if running and (needs > free or free_memory() < LEAST_FREE or not is_urgent and len(running) >= processors):
            return
        left.remove(task)
        running[task] = needs
        threading.Thread(target=run, args=(task, jobs, min(priority, LEAST)), daemon=True).start()

    while left or running:
        for task in [it for it in left if all(below in given for below in tasks[it][0])]:
            start(task)
        try:
            task, result = ended.get(timeout=RETRY)
        except queue.Empty:
            # Memory may be free by now, since wrong programs are tried beside this run.
            continue
        if isinstance(result, BaseException):
            raise result
        del running[task]
        given[task] = result
    return given


def main():
    rt = load_rt()
    rt.in_lanes = in_order
    return rt.main(["ci", *sys.argv[1:]])


if __name__ == "__main__":
    sys.exit(main())
