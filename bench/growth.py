"""Start-up, a long loop, slices, sixteen widgets together, and growth: widgets, items, nodes, queries, methods."""
import shutil
import sys

from measure import best
from pages import advance, click, library, manifest, page, ran

LOOP = "var i, s = 0, o = {a: 1, b: 2}; function g(x) { return x; } for (i = %d; i; i--) { s = s + o.a + g(o.b); }"
PARTS = {}
for number in range(8):
    PARTS.update(library("m%d" % number, LOOP % 25000))
COUNT = "var n = 0; dom.q('p').on('click', function (e) { n += 1; dom.q('p').value(n); });"
TIMER = "var n = 0; function f() { n += 1; ADSAFE.later(f, 0); } f();"
WORK = "var i, x; for (i = 0; i < 20000; i += 1) { x = {a: i}; } dom.q('p').value(i);"


def row(name, value, goal=None, unit="ms"):
    print("| %s | %.2f %s | %s |" % (name, value, unit, "" if goal is None else "at most %g" % goal))
    return goal is None or value <= goal


def start_up():
    empty = {"m.json": manifest([])}
    yield row("`check` of an empty page", best(empty, ["check", "m.json"], 15)[1], 5)
    yield row("`render` of an empty page", best(empty, ["render", "m.json"], 15)[1], 5)
    yield row("`render` of a widget that does nothing", ran(page([""]), times=15)[0], 5)


def loops():
    """200,000 passes: empty ones in one turn, and ones with a call in eight libraries."""
    plain = ran(page(["var i; for (i = 200000; i; i--) { }"]), times=3)
    parts = ran(page([""], libs=PARTS), times=3)
    yield row("200,000 passes without a body, %d units" % plain[2][0]["spent"], plain[0])
    yield row("200,000 passes with a call, two reads, two sums, %d units" % parts[2][0]["spent"], parts[0], 190)
    yield plain[2][0]["state"] == parts[2][0]["state"] == "live"
    yield from others()


def others():
    """The same passes by other interpreters that are installed, without their start."""
    for name, words in ("mujs", []), ("node", ["--jitless"]):
        program = shutil.which(name)
        if program:
            many = LOOP % 2000000
            files = {"empty.js": "", "program.js": many, "function.js": "(function () { %s }());" % many}
            empty, *times = [best(files, words + [file], 5, program)[1] for file in files]
            for where, time in zip(("as a program", "in a function"), times):
                yield row("200,000 such passes by %s, %s" % (" ".join([name] + words), where), (time - empty) / 10)


def slices():
    """The same bytes at each slice, and from 50 units on nearly the same time: what is cut has its own price."""
    files = page(["var i; for (i = 200000; i; i--) { }"] * 2)
    whole = ran(files, [], 1000000, 5)
    for slice in 1, 7, 50, 1000:
        cut = ran(files, [], slice, 5)
        yield row("slice %d: the time" % slice, cut[0])
        yield row("slice %d beside slice 1,000,000" % slice, cut[0] / whole[0], 2 if slice >= 50 else None, "times")
        yield cut[2] == whole[2]


def together():
    """Sixteen widgets on one page beside sixteen runs of one."""
    for name, body in ("a loop", "var i; for (i = 100000; i; i--) { }"), ("20,000 objects", WORK):
        one, most = ran(page([body]), times=5), ran(page([body] * 16), times=3)
        cut = ran(page([body] * 16), [], 50, times=3)
        yield row("16 widgets together beside 16 runs of one: " + name, most[0] / (16 * one[0]), 1.05, "times")
        yield row("the same at slice 50", cut[0] / (16 * one[0]), None, "times")
        yield row("megabytes of one and of 16", most[1] / one[1], None, "times")


def doubled(name, sizes, make):
    """Each size is twice the one before; the time above that of a page that does nothing."""
    start = ran(page([""]), times=5)[0]
    times = [ran(*make(size), times=3)[0] - start for size in sizes]
    text = ", ".join("%d: %.1f ms" % pair for pair in zip(sizes, times))
    last = times[-1] / max(times[-2], 0.1)
    print("| %s | %s; the last is %.2f times the one before | at most 2.5 |" % (name, text, last))
    return last <= 2.5


def growth():
    yield doubled("widgets that make 20,000 objects", [2, 4, 8, 16], lambda n: (page([WORK] * n),))
    yield doubled("events", [512, 1024, 2048, 4096], lambda n: (page([COUNT]), [click([0])] * n, 50))
    yield doubled("events to 16 widgets", [512, 1024, 2048, 4096],
                  lambda n: (page([COUNT] * 16), [click([0], item % 16) for item in range(n)], 50))
    yield doubled("turns of a timer", [3000, 6000, 12000, 24000], lambda n: (page([TIMER]), [advance(n // 4 * 10)] * 4, 50))
    yield doubled("turns of 64 timers", [16000, 32000, 64000, 128000],
                  lambda n: (page([TIMER + " f();" * 63]), [advance(n // 64 * 10)], 50))
    yield doubled("nodes of a widget, loaded and printed", [2000, 4000, 8000, 16000], lambda n: (page([""], "<i></i>" * n),))
    yield doubled("nodes of a widget, appended one by one", [2000, 4000, 8000, 16000],
                  lambda n: (page(["var i; for (i = 0; i < %d; i += 1) { dom.append(dom.tag('i')); }" % (n - 10)]),))
    yield doubled("nodes of the host", [30000, 60000, 120000, 240000], lambda n: (page([""], html="<br>" * n),))
    yield doubled("nodes of 16 widgets", [1000, 2000, 4000, 8000], lambda n: (page([""] * 16, "<i></i>" * n),))
    yield doubled("nodes with ids", [2000, 4000, 8000], lambda n: (
        page([""], "".join('<i id="A_%d"></i>' % number for number in range(n))),))
    yield doubled("names of an object", [8000, 16000, 32000], lambda n: (
        page(["var i, o = {}; for (i = 0; i < %d; i += 1) { o[+i] = i; }" % n]),))
    yield doubled("log entries", [8000, 16000, 32000, 64000], lambda n: (
        page(["var i; for (i = %d; i; i--) { ADSAFE.log('a'); }" % n]),))
    yield doubled("widgets that use eight libraries", [2, 4, 8, 16], lambda n: (page([""] * n, libs={
        name: text.replace("25000", "10") for name, text in PARTS.items()}),))
    yield doubled("bytes of a script, 100 a function", [500, 1000, 2000], lambda n: (page([
        "".join("function f%d(a) { var b = a; if (b) { b = b + 1; } while (b) { b = 0; } return b; } " % number
                for number in range(n))]),))


QUERIES = {
    "`*`": "dom.q('*')", "`i`": "dom.q('i')", "`#word`": "dom.q('#A_0')", "`>i`": "dom.q('>i')", "`/`": "dom.q('/')",
    "`+i` of all": "b.q('+i')", "`i:first`": "dom.q('i:first')", "`i:even:rest`": "dom.q('i:even:rest')",
}
ONCE = {
    "`remove`": "b.remove()", "`empty`": "b.empty()", "`append` to one": "d.append(b)",
    "`replace` of one by all": "f.replace(b)", "`explode`": "b.explode()", "`each`": "b.each(function () { })",
}
AGAIN = {
    "`value`": "b.value('')", "`klass`": "b.klass('x')", "`style`": "b.style('color', 'red')", "`mark`": "b.mark('x')",
    "`on` and `off`": "b.on('click', go).off()", "`protect`": "b.protect()", "`getValues`": "b.getValues()",
    "`getParent`": "b.getParent()",
}


def doubled_calls(name, call, times):
    """A call on a Bunch of nearly all nodes, or a query over them, beside the same page without it."""
    before = "var i, b = dom.q('>i'), d = dom.tag('div'), f = dom.q('#A_0'); function go() { } dom.append(d); "
    loop = "for (i = 0; i < %d; i += 1) { %s; }" % (times, call)

    def took(size):
        markup = '<p id="A_0"></p>' + '<i></i>' * (size - 3)
        whole, none = [ran(page([before + body], markup), times=5) for body in (loop, "")]
        return whole[0] - none[0], whole[2][0]

    sizes = [2000, 4000, 8000, 16000]
    measured = [took(size) for size in sizes]
    text = ", ".join("%d: %.1f ms" % (size, time) for size, (time, _) in zip(sizes, measured))
    last = measured[-1][0] / max(measured[0][0], 2)
    print("| %s, %d times | %s; the last is %.1f times the first | at most 20 |" % (name, times, text, last))
    return last <= 20 and measured[-1][1]["state"] == "live" and not measured[-1][1]["uncaught"]


def on_nodes():
    """Queries over nodes and methods of Bunches, eight times the nodes; what takes under 2 ms counts as 2."""
    for times, calls in (10, QUERIES), (10, AGAIN), (1, ONCE):
        for name, call in calls.items():
            yield doubled_calls(name, call, times)


def main():
    print("| What | Measured | Wanted |")
    print("|---|---|---|")
    good = [met for part in (start_up, loops, slices, together, growth, on_nodes) for met in part()]
    sys.exit(not all(good))


if __name__ == "__main__":
    main()
