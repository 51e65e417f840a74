"""What the dearest texts cost to check, beside ordinary ones of the same length.

A row is a text whose bytes are as dear as a text may be: its time a byte is told in those of ordinary
code, ordinary markup, an ordinary manifest and an ordinary trace. At most 4 times and 60 MB are wanted.
"""
import json
import sys

from measure import best
from sizes import ordinary

SCRIPT, MANIFEST = 262000, 1048000
DEEP = 190
GO = '<script>ADSAFE.go("A_", function (dom, lib) { });</script></div>'


def filled(start, unit, end, size=SCRIPT):
    """The unit (a text, or a function of its number) as often as the bytes allow."""
    parts, left, number = [], size - len(start) - len(end), 0
    while True:
        part = unit(number) if callable(unit) else unit
        if len(part) > left:
            return start + "".join(parts) + end
        parts.append(part)
        left -= len(part)
        number += 1


def library(start, unit, end=""):
    return filled('ADSAFE.lib("m", function (lib) {' + start, unit, end + "});\n")


def functions(parameters, variables):
    """The head of functions in one another, and their end."""
    heads = ["function f%d(%s){%s" % (depth, parameters, variables(depth)) for depth in range(DEEP)]
    return "var a,b;" + "".join(heads), "}" * DEEP


def libraries():
    plain, end = functions("", lambda depth: "")
    declared, _ = functions("a,b", lambda depth: "")
    many, _ = functions("", lambda depth: "var %s;" % ",".join("v%d_%d" % (depth, k) for k in range(10)))
    yield "ordinary code", ordinary()["m.js"]
    yield "statements `a=a;`", library("var a;", "a=a;")
    yield "statements `a++;`", library("var a;", "a++;")
    yield "calls `a();`", library("var a;", "a();")
    yield "a product", library("return 1", "*2", ";")
    yield "divisions (A01)", library("var a;", "a=a/a/a;")
    yield "`!` %d deep" % DEEP, library("var a;", "a=" + "!" * DEEP + "a;")
    yield "assignments %d deep" % DEEP, library("var a;", "a=" * DEEP + "a;")
    yield "`?:` %d deep" % DEEP, library("var a;", "a=" + "a?a:" * DEEP + "a;")
    yield "arrays %d deep" % DEEP, library("var a;", "a=" + "[" * DEEP + "]" * DEEP + ";")
    yield "an outermost name %d functions deep" % DEEP, library(plain, "a=b;", end)
    yield "the same, each function with ten variables", library(many, "a=b;", end)
    yield "a name that is declared %d functions deep" % DEEP, library(declared, "a=b;", end)


def widgets():
    start = '<div id="A_">'
    yield "ordinary markup", filled(start, lambda k: '<p class="note">Some words, <b>bold</b> and plain, %d.</p>\n' % k, GO, 100000)
    yield "a letter and a node", filled(start, "a<br>", GO, 40000)
    yield "`<br>` alone", filled(start, "<br>", GO, 65000)
    yield "nodes %d deep" % DEEP, filled(start, "<b>" * DEEP + "</b>" * DEEP, GO, 112000)
    yield "names of nodes", filled(start, lambda k: '<b id="A_%d"></b>' % k, GO)


def manifests():
    entry = lambda html: filled('{"version":1,"page":[{"html":"', html, '"}]}', MANIFEST)
    yield "ordinary markup of the host", entry(lambda k: "<p class='note'>Some words, <b>bold</b> and plain, %d.</p>" % k)
    yield "`<br>` alone", entry("<br>")
    yield "nodes %d deep" % DEEP, entry("<b>" * DEEP + "</b>" * DEEP)
    yield "entries of `<br>`", filled('{"version":1,"page":[{"html":""}', ',{"html":"<br>"}', "]}", MANIFEST)


def traces():
    event = lambda path, value: {"to": "A_", "event": "click", "path": path, "value": value}
    trace = lambda items: json.dumps({"version": 1, "items": items}, separators=(",", ":"))
    yield "ordinary events", trace([event([0, 1, 2], "v" * 190)] * 4000)
    yield "paths of 100 numbers", trace([event([0] * 100, "")] * 4000)
    yield "too many numbers", '{"version":1,"items":[' + ",".join(["1"] * 520000) + "]}"
    yield "too many objects", '{"version":1,"items":[' + ",".join(['{"a":1}'] * 130000) + "]}"


def table(title, rows, name, words, others):
    """Prints the rows, the dearest first; returns whether all are as wanted."""
    found = []
    for row, text in rows:
        status, time, memory, _ = best({**others, name: text}, words, 5)
        found.append((time / len(text), row, time, len(text), memory, status))
    plain = found[0][0]
    print("\n| %s | Bytes | Milliseconds | Times the first | MB | Status |\n|---|---|---|---|---|---|" % title)
    for each, row, time, size, memory, status in sorted(found, reverse=True):
        print("| %s | %d | %.1f | %.1f | %.0f | %d |" % (row, size, time, each / plain, memory, status), flush=True)
    return all(each <= 4 * plain and memory <= 60 for each, _, _, _, memory, _ in found)


def main():
    page = json.dumps({"version": 1, "page": [{"widget": "A_", "file": "w.html"}]})
    deep = '<div id="A_">' + "<b>" * DEEP + "</b>" * DEEP + GO
    good = [
        table("A library", libraries(), "m.js", ["check-lib", "m.js"], {}),
        table("A widget", widgets(), "w.html", ["check", "m.json"], {"m.json": page}),
        table("A manifest", manifests(), "m.json", ["check", "m.json"], {}),
        table("A trace", traces(), "t.json", ["replay", "m.json", "t.json", "1000000"], {"m.json": page, "w.html": deep}),
    ]
    sys.exit(not all(good))


if __name__ == "__main__":
    main()
