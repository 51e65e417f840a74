"""The time of calls by steps. README.md says how the program is built."""
import sys

from measure import best

GOAL = "call, two reads, two sums"


def script(body):
    """A script that hands over a function with this body."""
    return "f(function () { " + body + " });\n"


def loop(passes, before, body):
    """A loop of so many passes."""
    return script("var i, s = 0, e = 1, o = {a: 1, b: 2}; " + before
                  + " for (i = 0; i < %d; i += 1) { %s } return s;" % (passes, body))


def main():
    one = "var g = function (x) { return x; };"
    cases = {
        "empty loop": lambda n: loop(n, "", ""),
        "sum": lambda n: loop(n, "", "s = s + 1;"),
        GOAL: lambda n: loop(n, one, "s = s + o.a + g(o.b);"),
        "call of no arguments": lambda n: loop(n, "var g = function () { return 1; };", "g();"),
        "call of four arguments": lambda n: loop(n, "var g = function (a) { return a; };", "g(1, 2, 3, 4);"),
        "call of five arguments": lambda n: loop(n, "var g = function (a) { return a; };", "g(1, 2, 3, 4, 5);"),
        "throw and catch": lambda n: loop(n, "", "try { throw e; } catch (x) { s = s + x; }"),
    }
    start = best({"a.js": script("return 1;")}, ["a.js"])[1]
    print("start: %.1f ms" % start)
    met = True
    for name, make in cases.items():
        text, times = [], []
        for passes in (100000, 200000):
            status, time, memory, answer = best({"a.js": make(passes)}, ["a.js"], 5)
            how, fuel = answer.split()
            times.append(time - start)
            text.append("%d passes %.0f ms, %.0f MB, %s units, end %s" % (passes, time - start, memory, fuel, how))
        print(name + ": " + "; ".join(text))
        met = met and times[1] <= 2.5 * times[0] and (name != GOAL or times[1] <= 190)
    for name, text in {
        "left chain of 100,000 sums": script("var a = 0; return a" + " + 1" * 100000 + ";"),
        "left chain of 10,000 property reads": script("var a = {}; a.b = a; return a" + ".b" * 10000 + ";"),
        "else if, 150 long": script("var a = 0; if (a) { a = 1; }" + " else if (a) { a = 1; }" * 150 + " return a;"),
        "200 calls deep, 1,000 times": script(
            "var i, g = function (n) { return n ? g(n - 1) : 0; }; for (i = 0; i < 1000; i += 1) { g(197); } return i;"),
        "201 calls deep": script("var g = function (n) { return n ? g(n - 1) : 0; }; return g(198);"),
    }.items():
        status, time, memory, answer = best({"a.js": text}, ["a.js"], 5)
        print("%s: %.0f ms, %.0f MB, status %d, %s" % (name, time - start, memory, status, answer.strip()))
    sys.exit(0 if met else 1)


main()
