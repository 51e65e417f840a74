"""Runs the built program and says what it took."""
import os
import re
import subprocess
import sys
import tempfile

HERE = os.path.dirname(os.path.abspath(__file__))
PROGRAM = os.path.abspath(sys.argv[1] if len(sys.argv) > 1 else HERE + "/../crates/adhost/out/adhost")

# A small process that waits for the program, so that the memory which is told is not that of this one.
WAITS = """
import os, resource, sys
child = os.fork()
if child == 0:
    resource.setrlimit(resource.RLIMIT_CPU, (300, 300))
    resource.setrlimit(resource.RLIMIT_AS, (8 << 30, 8 << 30))
    os.execv(sys.argv[1], sys.argv[1:])
_, status, used = os.wait4(child, 0)
time = (used.ru_utime + used.ru_stime) * 1000
print(os.waitstatus_to_exitcode(status), time, used.ru_maxrss / 1024, file=sys.stderr)
"""


def run(folder, words, program=PROGRAM):
    """The status, milliseconds of processor time, megabytes at most, and output of one run.

    A run that takes more than 300 seconds is ended (its status is -9); one that asks for more than 8 GB
    meets want of memory.
    """
    command = [sys.executable, "-S", "-E", "-c", WAITS, program] + words
    ran = subprocess.run(command, cwd=folder, stdout=subprocess.PIPE, stderr=subprocess.PIPE)
    status, time, memory = ran.stderr.split()[-3:]
    return int(status), float(time), float(memory), ran.stdout.decode()


def put(files, folder):
    for name, text in files.items():
        with open(os.path.join(folder, name), "w") as file:
            file.write(text)


def best(files, words, times=7, program=PROGRAM):
    """The same over these files: the least time of some runs."""
    with tempfile.TemporaryDirectory() as folder:
        put(files, folder)
        return min((run(folder, words, program) for _ in range(times)), key=lambda result: result[1])


def instructions(files, words):
    """How many instructions a run takes, counted by valgrind: the same at each run."""
    counts = ["valgrind", "--tool=cachegrind", "--cache-sim=no", "--cachegrind-out-file=/dev/null", PROGRAM]
    with tempfile.TemporaryDirectory() as folder:
        put(files, folder)
        ran = subprocess.run(counts + words, cwd=folder, stdout=subprocess.DEVNULL, stderr=subprocess.PIPE)
    return int(re.search(rb"I\s+refs:\s+([\d,]+)", ran.stderr)[1].replace(b",", b""))
