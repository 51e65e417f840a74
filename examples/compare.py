#!/usr/bin/env python3
"""Runs the examples of this folder and compares what is written, byte for byte, with what stands here.

    examples/compare.py [--try | PROGRAM]

Without a word the script `adhost` at the root of the repository is run; with `--try` the program that it
builds without any proof; else PROGRAM, a built program. The status is 0 where all agree. Compared are the
stored outputs (*.jsonl, *.txt), the lines of README.md with the file or the page that stands in the same row, and the
logs of lib/ with those that lib/expected.py reckons.
"""

import json
import os
import re
import subprocess
import sys

HERE = os.path.dirname(os.path.abspath(__file__))
sys.path.insert(0, f"{HERE}/../docs")
from run_examples import program_of  # noqa: E402

GADGETS = ["banner", "calc", "clock", "form", "tip", "todo"]


def stored(folder, words, name, status=0):
    """A command line in a folder, with the output that the folder keeps under a name, and the status."""
    with open(f"{HERE}/{folder}/{name}", "rb") as file:
        return folder, words, file.read(), status


def rows():
    """The command lines of the rows of README.md, each with its line."""
    with open(f"{HERE}/README.md", encoding="utf-8") as file:
        text = file.read()
    for name, line in re.findall(r'^\| `([\w./-]+)` \| .* \| `(\{.*\})` \|$', text, re.M):
        if name.endswith(".js"):
            yield ".", ["check-lib", name], f"{line}\n".encode(), 1
        else:
            page = os.path.basename(name).replace(".html", ".json")
            yield "refused", ["check", page], f"{line}\n".encode(), 1
    for name in re.findall(r"^\| `([\w./-]+\.js)` \| [^|]* \|$", text, re.M):
        yield ".", ["check-lib", name], f'{{"file":"{name}","accepted":true}}\n'.encode(), 0
    lines = re.search(r"^```\n(\{.widget.*?)^```$", text, re.M | re.S)[1]
    yield "gadgets", ["check", "m.json"], lines.encode(), 0
    yield "hello", ["check", "m.json"], b'{"widget":"HELLO_","file":"hello.html","accepted":true}\n', 0


def runs():
    """All command lines: the folder, the words, the output and the status."""
    yield from rows()
    yield stored("gadgets", ["replay", "m.json", "t.json", "50"], "replay.jsonl")
    for name in GADGETS:
        yield stored("gadgets", ["render", f"m-{name}.json"], f"render-{name}.jsonl")
        yield stored("gadgets", ["replay", f"m-{name}.json", f"t-{name}.json", "7"], f"replay-{name}.jsonl")
    yield stored("cookbook", ["check", "m.json"], "check.jsonl")
    yield stored("cookbook", ["render", "m.json"], "render.jsonl")
    yield stored("cookbook", ["replay", "m.json", "t.json", "50"], "replay.jsonl")
    yield stored("lib", ["replay", "m.json", "t.json", "50"], "replay.jsonl")
    yield stored("market", ["check", "m.json"], "check.jsonl")
    yield stored("market", ["render", "m.json"], "render.jsonl")
    yield stored("market", ["replay", "m.json", "t.json", "7"], "replay.jsonl")
    yield stored("market", ["replay", "m.json", "t-swap.json", "7"], "replay-swap.jsonl", 1)
    yield stored("market", ["audit", "m.json", "t.json", "7"], "audit.txt")
    yield stored("market", ["audit", "m.json", "t-swap.json", "7"], "audit-swap.txt", 1)
    yield "market", ["check-audit", "audit.txt"], b'{"confined":true}\n', 0
    yield "market", ["check-audit", "leaking.txt"], b'{"confined":false,"line":25}\n', 1


def reckoned():
    """Whether the stored logs of lib/ are those that Python reckons."""
    with open(f"{HERE}/lib/t.json", "rb") as trace:
        wanted = subprocess.run([f"{HERE}/lib/expected.py"], stdin=trace, stdout=subprocess.PIPE, check=True).stdout
    with open(f"{HERE}/lib/replay.jsonl", encoding="utf-8") as report:
        logs = [json.loads(line).get("log") for line in report]
    return logs[:2] == [json.loads(line) for line in wanted.splitlines()]


def main(program):
    """Runs all, tells those that differ, and gives the status."""
    count, bad = 1, 0
    if not reckoned():
        bad += 1
        print("lib: the logs of replay.jsonl are not those that expected.py reckons")
    for folder, words, output, status in runs():
        ended = subprocess.run([program, *words], cwd=f"{HERE}/{folder}", stdout=subprocess.PIPE)
        count += 1
        if (ended.stdout, ended.returncode) != (output, status):
            bad += 1
            print(f"{folder}: {' '.join(words)}: status {ended.returncode}, {ended.stdout.decode()[:400]}")
    print(f"{count} comparisons, {bad} differ")
    return 1 if bad else 0


if __name__ == "__main__":
    sys.exit(main(program_of(sys.argv[1] if len(sys.argv) > 1 else "")))
