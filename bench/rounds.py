"""Posts, rounds, swaps and certificates: growth, a page that posts all it may, a certificate at the limit, twenty lives."""
import sys

from measure import best, instructions
from pages import advance, manifest, name_of, page, ran, swap, traced, widget
from quotas import QUOTAS, in_turns

LIMIT = 16777216
POST = "var i; for (i = 0; i < %d; i += 1) { ADSAFE.post('%s', '%s'); } "
HEAR = "dom.q('p').getParent().on('post', function (e) { %s }); "
LOGS = HEAR % "ADSAFE.log(e.value);"
RING = [(slot, (slot + 1) % 16) for slot in range(16)]
# As many channels as a manifest may have: four to each widget.
CHANNELS = [(slot, (slot + step) % 16) for step in (1, 2, 3, 4) for slot in range(16)]
FULL = next(quota for quota in QUOTAS if quota.name.startswith("nearly all"))
# Steps that give a certificate one reference more.
CELLS = {
    "cells": "x = {a: x};", "names of one cell": "ADSAFE.set(o, 'k' + n, a);",
    "elements of one array": "a[+n] = o;", "elements put and deleted": "a[+n] = o; if (n % 2) { delete a[+n - 1]; }",
    "scopes": "(function (y) { return 1; }(o));", "handlers of one node": "b.on('y', f);",
}
LIFE = in_turns(FULL.step, FULL.setup, FULL.passes)
AUDIT = ["audit", "m.json", "t.json", "1000000"]


def passes_on(slot, count):
    """A widget that posts what it hears on to the next one, less one, down to 0; with a count it begins."""
    to = name_of((slot + 1) % 16)
    hear = HEAR % ("var n = parseInt(e.value.split(' ')[1], 10); if (n) { ADSAFE.post('%s', '' + (n - 1)); }" % to)
    return hear + ("ADSAFE.post('%s', '%d');" % (to, count - 1) if count else "")


def makes(step, count):
    """A widget that does a step so many times, and the items that let it."""
    body = in_turns("if (n < %d) { %s }" % (count, step), "var b = dom.q('p');", 20000)
    return page([body]), [advance(10 * (count // 20000 + 1))]


def replay(files, items):
    return instructions(traced(files, items), ["replay", "m.json", "t.json", "1000000"])


def told(name, sizes, counts):
    """Each size is twice the one before."""
    text = ", ".join("%d: %.1f" % (size, count / 1e6) for size, count in zip(sizes, counts))
    last = counts[-1] / counts[-2]
    print("| %s | %s | %.2f; at most 2.5 |" % (name, text, last), flush=True)
    return last <= 2.5


def doubled(name, sizes, make):
    """Instructions above those of a page that does nothing of it."""
    start = replay(*make(0))
    return told(name, sizes, [replay(*make(size)) - start for size in sizes])


def growth():
    print("| Growth with | Millions of instructions | The last beside the one before |\n|---|---|---|")
    yield doubled("posts of eight widgets to one, in one round", [256, 512, 1024, 2048], lambda n: (
        page([POST % (n // 8, "I_", "x")] * 8 + [LOGS], channels=[(slot, 8) for slot in range(8)]), []))
    yield doubled("rounds of one post, from widget to widget", [512, 1024, 2048, 4096], lambda n: (
        page([passes_on(slot, 0 if slot else n) for slot in range(16)], channels=RING), []))
    yield doubled("rounds of sixteen posts", [32, 64, 128, 256], lambda n: (
        page([passes_on(slot, n) for slot in range(16)], channels=RING), []))
    work = "var i, x; for (i = 0; i < 5000; i += 1) { x = {a: i}; }"
    yield doubled("swaps, each of another slot", [1, 2, 4], lambda n: (
        page([work] * 4), [swap(slot, "w%d.html" % slot) for slot in range(n)]))
    yield doubled("swaps of one slot", [1, 2, 4], lambda n: (page([work] * 4), [swap(0, "w0.html")] * n))
    for name, step in CELLS.items():
        yield from certificates(name, [8192, 16384, 32768, 65536], lambda n, step=step: makes(step, n))
    yield from certificates("widgets of 8,192 cells", [2, 4, 8, 16], lambda n: (
        page([in_turns("x = {a: x};", "", 8192).replace("ADSAFE.later(turn, 0);", "")] * n), []))


def certificates(name, sizes, make):
    """What `audit` takes above `replay`, and what `check-audit` takes of what it wrote."""
    written, judged = [], []
    for size in sizes:
        files, items = make(size)
        audited = traced(files, items)
        written.append(instructions(audited, AUDIT) - replay(files, items))
        text = best(audited, AUDIT, 1)[3]
        judged.append(instructions({"c.txt": text}, ["check-audit", "c.txt"]))
    yield told("a certificate's %s, written" % name, sizes, written)
    yield told("the same, judged", sizes, judged)


def posted():
    """Sixteen widgets that post 256 texts each, by all channels that there may be."""
    print("| Sixteen widgets that post 256 texts each, 64 to each of four | Measured |\n|---|---|")
    for units in 1, 1024:
        text = "x" * units
        bodies = [LOGS + "".join(POST.replace("var i;", "var i;") % (64, name_of((slot + step) % 16), text) for step in (1, 2, 3, 4))
                  for slot in range(16)]
        files = page(bodies, channels=CHANNELS)
        for slice in 1000000, 50:
            time, memory, lines = ran(files, [], slice)
            print("| texts of %d units, slice %d | %.0f ms, %.0f MB |" % (units, slice, time, memory), flush=True)
            yield all(line["turns"] == 257 and len(line["log"]) == 256 for line in lines[:16])


def refused_slots(bytes_left):
    """Entries of refused slots whose lines in a certificate have so many bytes together; each has 11 to 41."""
    entries, letter = [], ord("B")
    while bytes_left:
        length = min(41, bytes_left if bytes_left <= 41 else bytes_left - 11)
        entries.append({"widget": chr(letter) * (length - 10) + "_", "file": "none.html"})
        bytes_left, letter = bytes_left - length, letter + 1
    return entries


def at_limit():
    """Certificates of the greatest length, and of one byte more."""
    count, step = 409000, "x = {a: x, b: x};"
    files, items = makes(step, count)
    length = len(best(traced(files, items), AUDIT, 1)[3])
    while LIMIT - length > 600 or LIMIT - length < 11:
        count += (LIMIT - 100 - length) // 41
        files, items = makes(step, count)
        length = len(best(traced(files, items), AUDIT, 1)[3])
    print("| A certificate of 16,777,216 bytes | Status | ms | MB |\n|---|---|---|---|")
    # The slots that make it so long were refused: status 1.
    for more, wanted in (0, 1), (1, 10):
        entries = [{"widget": "A_", "file": "w0.html"}] + refused_slots(LIMIT + more - length)
        tuned = traced(dict(files, **{"m.json": manifest(entries), "none.html": ""}), items)
        plain = best(tuned, ["replay", "m.json", "t.json", "1000000"], 3)
        status, time, memory, text = best(tuned, AUDIT, 3)
        print("| %d cells, `replay` | %d | %.0f | %.0f |" % (count, *plain[:3]))
        print("| `audit`, %s | %d | %.0f | %.0f |" % ("one byte more" if more else "just so long", status, time, memory), flush=True)
        yield status == wanted and len(text) == (0 if more else LIMIT)
        if not more:
            for name, bytes_of, wanted in ("just so long", text, 0), ("one byte more", text + "\n", 5):
                status, time, memory, said = best({"c.txt": bytes_of}, ["check-audit", "c.txt"], 3)
                print("| `check-audit`, %s | %d | %.0f | %.0f |" % (name, status, time, memory), flush=True)
                yield status == wanted and said == ("" if wanted else '{"confined":true}\n')


def lives():
    """Lives at their quotas: of one slot, and sixteen slots of which four are swapped."""
    print("| Lives at their quotas | ms | MB | MB a life |\n|---|---|---|---|")
    turns = [advance(60000)] * 2
    for slots, swaps in (1, 0), (1, 1), (1, 4), (16, 4):
        items = turns + [swap(number % slots, "w%d.html" % (number % slots)) for number in range(swaps)] + turns
        if slots == 1:
            items = turns + [item for _ in range(swaps) for item in [swap(0, "w0.html")] + turns]
        time, memory, lines = ran(page([LIFE] * slots), items)
        print("| %d slots, %d swaps | %.0f | %.0f | %.0f |" % (slots, swaps, time, memory, memory / (slots + swaps)), flush=True)
        yield len(lines) == slots + swaps + 1 and all(line["state"] == "units" for line in lines[:-1]) and memory < 7000


def main():
    good = [met for part in (growth, posted, at_limit, lives) for met in part()]
    print("All is as wanted." if all(good) else "Some of it is not as wanted.")
    sys.exit(not all(good))


if __name__ == "__main__":
    main()
