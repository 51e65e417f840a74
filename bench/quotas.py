"""Widgets that run out of a quota or do not end by themselves: how they end, in what time and memory."""
import sys
from typing import NamedTuple

from pages import advance, click, page, ran

LIMITS = {"cells": 524288, "slots": 1048576, "units": 2097152, "nodes": 16384}
CELL, SLOT = 150, 80
MANY = "<i></i>" * 16382
NEST = "<div>" * 100 + "</div>" * 100
START = "var i = 0, n = 0, x, o = {}, a = []; function f() { return 1; } "


class Quota(NamedTuple):
    """A step that is done until a quota ends it, in turns of so many passes, each begun by a timer."""
    name: str
    end: str
    step: str
    stated: float = 0  # bytes for each of these, where the documents state them
    setup: str = ""
    passes: int = 20000
    markup: str = "<p>hi</p>"
    count: int = 0  # how many there are, where they are not as many as the quota's


class Case(NamedTuple):
    name: str
    end: str
    body: str
    items: list = None
    markup: str = "<p>hi</p>"
    html: str = ""


QUOTAS = [
    Quota("objects", "cells", "x = {};", CELL),
    Quota("objects with one name", "cells", "x = {a: x};", CELL + SLOT),
    Quota("objects with two names", "slots", "x = {a: 1, b: 2};", CELL + 2 * SLOT, count=524288),
    Quota("arrays", "cells", "x = [];", CELL),
    Quota("arrays of two elements", "slots", "x = [1, 2];", CELL + 2 * SLOT, count=524288),
    Quota("functions", "cells", "x = function () { return 1; };", CELL),
    Quota("Bunches of no node", "cells", "x = b.q('b');", 2 * CELL + SLOT, "var b = dom.q('p');"),
    Quota("names of one object", "slots", "o[+n] = n;", SLOT),
    Quota("elements of one array", "slots", "a[+n] = n;", SLOT),
    Quota("one name, written and deleted", "slots", "o.a = 1; delete o.a;", SLOT),
    Quota("calls of an empty function", "slots", "f();", CELL + SLOT),
    Quota("calls of a function of ten names", "slots", "g();", CELL + 11 * SLOT,
          "function g(a, b, c, d, e) { var h, j, k, l, m; }", count=95325),
    Quota("catches", "slots", "try { throw 1; } catch (e) { x = e; }", CELL + 2 * SLOT, count=524288),
    Quota("handlers of one node", "slots", "b.on('y', f);", SLOT, "var b = dom.q('p');"),
    Quota("Bunches of 16,382 nodes", "slots", "x = dom.q('i');", SLOT, "", 10, MANY),
    Quota("texts of one unit in an array", "slots", "a[+n] = 'ab'.charAt(1);"),
    Quota("log entries without a unit", "units", "ADSAFE.log('');"),
    Quota("texts of 32,769 units", "units", "a.push(s + 'a');", 0, "var s = 'x'; while (s.length < 32768) { s += s; }"),
    Quota("names of 2 to 7 units", "units", "ADSAFE.set(o, 'k' + n, 1);"),
    Quota("titles", "units", "b.title('abcd');", 0, "var b = dom.q('p');"),
    Quota("detached nodes", "nodes", "x = dom.tag('i');"),
    Quota("nodes in the page", "nodes", "dom.append(dom.tag('i'));"),
    Quota("nearly all of cells, nodes and slots, then units, each by what is largest", "units",
          "if (n < 490000) { x = b.q('b'); } else if (n < 506000) { dom.append(dom.tag('i')); }"
          " else if (n < 980000) { f(); } else { ADSAFE.log('ab'.charAt(1)); }", 0, "var b = dom.q('p');"),
]

CASES = [
    Case("`while (true) {}`", "fuel", "while (true) {}"),
    Case("`for (;;) {}`", "fuel", "for (;;) {}"),
    Case("a catch round everything", "fuel",
         "function g() { try { throw 1; } catch (e) { while (true) { try { x = y.z; } catch (h) { x = h; } } }"
         " finally { g(); } } var y; g();"),
    Case("a `finally` that calls itself", "depth", "function g() { try { g(); } finally { g(); } } g();"),
    Case("throws through 190 calls", "fuel",
         "function g(n) { if (n) { g(n - 1); } else { throw 1; } } while (true) { try { g(190); } catch (e) { x = e; } }"),
    Case("recursion", "depth", "function g() { g(); } g();"),
    Case("recursion by `forEach`", "depth", "function g() { [1].forEach(g); } g();"),
    Case("recursion by `toString`", "depth", "o.toString = function () { return '' + o; }; x = '' + o;"),
    Case("recursion by `fire`", "depth", "var b = dom.q('p'); b.on('x', function (e) { b.fire('x'); }); b.fire('x');"),
    Case("an array in itself, joined", "live", "a[0] = a; a.join();"),
    Case("an array in itself, to JSON", "live", "a[0] = a; try { ADSAFE.toJson(a); } catch (e) { x = e; }"),
    Case("a sum of 120,000 members", "live", "x = 1" + "+1" * 120000 + ";"),
    Case("sums of 6,000 members in calls in one another", "fuel", "function g() { return g()" + " + 1" * 6000 + "; } g();"),
    Case("a text that is doubled", "longtext", "x = 'x'; while (true) { x = x + x; }"),
    Case("a number past the limit", "number", "x = 1; while (true) { x = x * 3; }"),
    Case("4,096 events, each to a loop of 100 passes", "live",
         "dom.q('p').on('click', function (e) { for (i = 0; i < 100; i += 1) { x = i; } });", [click([0])] * 4096),
    Case("4,096 events to a stopped widget", "fuel", "dom.q('p').on('click', f); while (true) {}", [click([0])] * 4096),
    Case("4,096 events 100 deep that bubble", "slots", "dom.q('div').on('click', function (e) { e.bubble(); });",
         [click([0] * 100)] * 4096, NEST),
    Case("4,096 events 100 deep that no node hears", "live", "", [click([0] * 100)] * 4096, NEST),
    Case("64 timers that begin again, for 240 s", "slots",
         "function g() { ADSAFE.later(g, 0); } for (i = 0; i < 64; i += 1) { ADSAFE.later(g, 0); }", [advance(60000)] * 4),
    Case("4,096 advances without a timer", "live", "", [advance(60000)] * 4096),
    Case("16,382 nodes, each in a Bunch of its own", "live", "dom.q('i').each(function (b) { x = b; });", None, MANY),
    Case("a page of 262,000 nodes of the host", "live", "", None, "<p>hi</p>", "<br>" * 262000),
]

# What takes no quota must take no memory.
FREE = [
    ("reads of names that no object has", "x = o[+n];"),
    ("`ADSAFE.get` of such names", "x = ADSAFE.get(o, n);"),
    ("`ADSAFE.has` of such names", "x = ADSAFE.has(o, n);"),
    ("sums, products and comparisons", "x = n + n * 2 < 7;"),
    ("text methods that give no text", "x = 'abc'.indexOf('c');"),
]


def in_turns(step, setup, passes):
    return (START + setup + " function turn() { for (i = %d; i; i--) { %s n += 1; } ADSAFE.later(turn, 0); } turn();"
            % (passes, step))


def run_of(name, files, items, end):
    """One row of the table: how the widget ended, the turns, units, milliseconds and megabytes."""
    time, memory, lines = ran(files, items)
    line = lines[0]
    print("| %s | %s | %d | %d | %.0f | %.0f | "
          % (name, line["state"], line["turns"], line["spent"], time, memory), end="", flush=True)
    return line["state"] == end, memory


def main():
    good, most = True, 0
    _, empty, _ = ran(page([START]))
    print("| Widget | Ends | Turns | Units | ms | MB | Bytes for each | Stated |")
    print("|---|---|---|---|---|---|---|---|")
    for quota in QUOTAS:
        files = page([in_turns(quota.step, quota.setup, quota.passes)], quota.markup)
        met, memory = run_of(quota.name, files, [advance(60000)] * 2, quota.end)
        each = (memory - empty) * 1048576 / (quota.count or LIMITS[quota.end])
        print("%.0f | %s |" % (each, "%.0f" % quota.stated if quota.stated else ""))
        good = good and met and (not quota.stated or each <= quota.stated)
        most = max(most, memory)
    for case in CASES:
        met, _ = run_of(case.name, page([START + case.body], case.markup, html=case.html), case.items, case.end)
        print("| |")
        good = good and met
    for name, step in FREE:
        files = page([in_turns(step, "", 20000)])
        _, few, _ = ran(files, [advance(40)])
        met, many = run_of(name + ", 400,000 times", files, [advance(190)], "live")
        print("%.1f | 0 |" % ((many - few) * 1048576 / 300000))
        good = good and met and many - few < 4
    print("Sixteen widgets at the most of these: %.1f GB; at most 5.5 are wanted." % (16 * most / 1024))
    print("All ends and goals are as wanted." if good else "Some end or goal is not as wanted.")
    sys.exit(not good or 16 * most > 5.5 * 1024)


if __name__ == "__main__":
    main()
