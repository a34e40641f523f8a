"""What a command takes: for bench/running and bench/tasks, which run the same work here and in CPython."""
import os
import resource
import subprocess
import sys
import tempfile
from pathlib import Path

TOP = Path(__file__).resolve().parent.parent
PROGRAM = TOP / "julia-tasks"
ROUNDS = 3


def cost(command, text=""):
    """What a command writes when it is given this text, the processor seconds that it takes with its children, and its
    peak memory in bytes. Another process measures it, so that each command is counted alone."""
    with tempfile.TemporaryFile("w+") as given, tempfile.TemporaryFile("w+") as written:
        given.write(text)
        given.seek(0)
        child = os.fork()
        if child == 0:
            ran = subprocess.run(command, stdin=given, stdout=written)
            used = resource.getrusage(resource.RUSAGE_CHILDREN)
            written.seek(0, os.SEEK_END)
            written.write(f"\0{ran.returncode} {used.ru_utime + used.ru_stime} {used.ru_maxrss * 1024}")
            written.flush()
            os._exit(0)
        os.waitpid(child, 0)
        written.seek(0)
        output, _, counts = written.read().rpartition("\0")
    status, seconds, peak = counts.split()
    if status != "0":
        sys.exit(f"{command} ended with status {status}")
    return output, float(seconds), int(peak)


def least(runs, expected):
    """The least processor seconds and the least peak of a few rounds, in which these runs take turns: each is a name
    with a command and the text that it is given. Each has to write what is expected."""
    found = {name: (float("inf"), float("inf")) for name in runs}
    for _ in range(ROUNDS):
        for name, (command, text) in runs.items():
            output, seconds, peak = cost(command, text)
            if output != expected:
                sys.exit(f"{name} doesn't write what it should: {output[:100]!r}")
            found[name] = (min(found[name][0], seconds), min(found[name][1], peak))
    return found


def both(script, python, expected):
    """The costs of a script here and of the same work in CPython."""
    found = least(
        {"julia-tasks": ([str(PROGRAM), "run"], script), "CPython": ([sys.executable, "-I", "-c", python], "")},
        expected,
    )
    return found["julia-tasks"], found["CPython"]
