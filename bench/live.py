"""A live page: the time of an item, the memory of many, the start, and fifty pages at once."""
import json
import os
import subprocess
import sys
import tempfile
import time

from measure import HERE, put
from pages import advance, click, name_of, page

PROGRAM = os.path.abspath(sys.argv[1] if len(sys.argv) > 1 else HERE + "/../crates/live/out/live")
TICKS = os.sysconf("SC_CLK_TCK")
# With the button, the text that changes and the root: 1,000 nodes.
MARKUP = "<button>go</button><p>hi</p>" + "<p>x</p>" * 497 + "<p></p>"
COUNT = "var n = 0, out = dom.q('p:first'); dom.q('button').on('click', function (e) { n += 1; out.value(n); });"
EXAMPLES = HERE + "/../examples/"
VISITORS = 50


class Live:
    """A program `live` in a folder, which has read its manifest and written its page."""

    def __init__(self, folder):
        self.program = subprocess.Popen([PROGRAM, "m.json", "1000"], cwd=folder, stdin=subprocess.PIPE,
                                        stdout=subprocess.PIPE)
        while not self.program.stdout.readline().startswith(b'{"page"'):
            pass
        self.start = self.spent()

    def give(self, item):
        """The answer to an item."""
        self.ask(item)
        return self.answer()

    def ask(self, item):
        self.program.stdin.write(json.dumps(item).encode() + b"\n")
        self.program.stdin.flush()

    def answer(self):
        return json.loads(self.program.stdout.readline())

    def spent(self):
        """Milliseconds of processor time so far."""
        with open("/proc/%d/schedstat" % self.program.pid) as file:
            return int(file.read().split()[0]) / 1e6

    def kilobytes(self, part="Rss"):
        """The memory that it has; with `Pss` what it shares with others is divided among them."""
        with open("/proc/%d/smaps_rollup" % self.program.pid) as file:
            return next(int(line.split()[1]) for line in file if line.startswith(part + ":"))

    def end(self):
        self.program.stdin.close()
        return self.program.wait()


def row(name, value, goal=None, unit="ms"):
    print("| %s | %.2f %s | %s |" % (name, value, unit, "" if goal is None else "at most %g" % goal))
    return goal is None or value <= goal


def folder_of(files):
    folder = tempfile.TemporaryDirectory()
    put(files, folder.name)
    return folder


def items():
    """Sixteen widgets of 1,000 nodes; each item changes one of them."""
    with folder_of(page([COUNT] * 16, MARKUP)) as folder:
        live = Live(folder)
        yield row("the start of a page of sixteen widgets of 1,000 nodes, processor time", live.start)
        yield row("its memory", live.kilobytes() / 1024, unit="MB")
        waits, before, many = [], live.spent(), 800
        for number in range(many):
            began = time.monotonic()
            answer = live.give(click([0], number % 16))
            waits.append((time.monotonic() - began) * 1000)
            yield [slot["line"]["widget"] for slot in answer["slots"]] == [name_of(number % 16)]
        yield row("an item to one of them, processor time", (live.spent() - before) / many, 2)
        yield row("the same, until the answer is read: the middle one", sorted(waits)[many // 2], 2)
        yield row("the slowest of a hundred", sorted(waits)[many * 99 // 100])
        before = live.spent()
        for _ in range(many):
            live.give(advance(10))
        yield row("an advance in which no timer is due, processor time", (live.spent() - before) / many, 2)
        yield live.end() == 0


def memory():
    """4,000 items: to a widget that listens to none, and to one that keeps nothing."""
    for what, body, goal in (("that nobody listens to", "", 0.1), ("with a handler that changes a text", COUNT, None)):
        with folder_of(page([body], MARKUP)) as folder:
            live = Live(folder)
            for _ in range(90):
                live.give(click([0]))
            before = live.kilobytes()
            for _ in range(4000):
                live.give(click([0]))
            yield row("what 4,000 items %s add to memory" % what, (live.kilobytes() - before) / 1024, goal, "MB")
            yield live.end() == 0


def crowd():
    """Fifty pages of the six gadgets at once."""
    item = {"to": "CALC_", "event": "change", "path": [1], "value": "2 + 3 * 4"}
    one = Live(EXAMPLES + "gadgets")
    yield row("the start of the six gadgets, processor time", one.start)
    yield row("their memory", one.kilobytes() / 1024, unit="MB")
    before = one.spent()
    for _ in range(800):
        one.give(item)
    yield row("an item to the calculator, processor time", (one.spent() - before) / 800)
    before = one.spent()
    for _ in range(800):
        one.give(advance(1000))
    yield row("a second that goes by, processor time", (one.spent() - before) / 800)
    yield one.end() == 0
    pages = [Live(EXAMPLES + "gadgets") for _ in range(VISITORS)]
    yield row("the memory of fifty such pages", sum(page.kilobytes("Pss") for page in pages) / 1024, unit="MB")
    began = time.monotonic()
    for _ in range(20):
        for page in pages:
            page.ask(item)
        for page in pages:
            page.answer()
    yield row("items a second to all of them", 20 * VISITORS / (time.monotonic() - began), unit="items")
    yield all([page.end() == 0 for page in pages])


if __name__ == "__main__":
    sys.exit(0 if all([met for part in (items, memory, crowd) for met in part()]) else 1)
