"""What a unit of fuel costs, form by form and native by native: the dearest beside the cheapest.

Each step stands in a loop. What the loop takes without it is subtracted, and so is what stands before
the loop. A step is called dear where its unit costs over 100 times a unit of the loop.
"""
import sys

from pages import FUEL, page, ran

LETTERS = "abcdefghijklmnopqrstuvwxyz0123456789"
MANY = "<i></i>" * 16000
NEST = "<div>" * 198 + "</div>" * 198
STYLE = ";".join(
    "%s:%s" % (name, "a" * 256)
    for name in "border bottom clear color cursor display float height left margin opacity overflow padding "
    "position right top visibility width".split()
)
LONG = '"' + "x" * 100000
TEXT = 'var s = "x"; while (s.length < 32768) { s = s + s; }'
CHAIN = "var o = {}; for (i = 0; i < 99; i += 1) { o = ADSAFE.create(o); }"
ARRAY = "var a = []; for (i = 0; i < 20000; i += 1) { a[+i] = i; }"
TEXTS = TEXT + " var a = []; for (i = 0; i < 10000; i += 1) { a[+i] = s; } for (i = 0; i < 20; i += 1) { a[+i] = s + i; }"
LISTEN = "var b = dom.q('p'); for (i = 0; i < 60000; i += 1) { b.on('y', f); }"
SINGLES = [c for c in "bcdefghijklmnopqrstuvwxyzABCDEFGHIJKLMNOPQRSTUVWXYZ0123456789"]
WORDS = [a + b + c for a in LETTERS for b in LETTERS for c in LETTERS][:25000]
DOUBLED = "while (q.length < 32768) { q = q + q; } q = '*' + q;"
PAIR = 'var s = "%sa", t = "%sb";' % ("x" * 125000, "x" * 125000)
WORD = 'var s = "%s";' % ("x" * 250000)
FROM = "try { ADSAFE.fromJson(s); } catch (e) { x = 1; }"
E10 = "try { p.append(b); } catch (e) { x = 1; }"
TO = "try { ADSAFE.toJson(a); } catch (e) { x = 1; }"


def names(count):
    return ", ".join("v%d" % number for number in range(count))


def nested(depth, inner):
    """A call of functions in one another."""
    return "(function () { " * depth + inner + " }());" * depth


# Each row: its name, what stands before the loop, the step, the markup.
ROWS = [
    ("`s = s + 1`", "var s = 0;", "s = s + 1;"),
    ("call of an empty function", "", "f();"),
    ("`{}`", "", "x = {};"),
    ("`[1, 2]`", "", "x = [1, 2];"),
    ("function expression", "", "x = function () { return 1; };"),
    ("throw and catch", "", "try { throw 1; } catch (e) { x = e; }"),
    ("a name that is missing on a chain of 100", CHAIN, "x = o.y;"),
    ("`for-in` of 100 names on each of 99 prototypes",
     "var o = {}, k; for (i = 0; i < 99; i += 1) { o = ADSAFE.create(o); for (x = 0; x < 100; x += 1) { o[+x] = 1; } }",
     "for (k in o) { break; }"),
    ("`===` of texts of 100,000 units", "var s = %sa\", t = %sb\";" % (LONG, LONG), "x = s === t;"),
    ("`<` of texts of 100,000 units", "var s = %sa\", t = %sb\";" % (LONG, LONG), "x = s < t;"),
    ("`+` of a text of 200,000 blanks", 'var s = "%s";' % (" " * 200000), "x = +s;"),
    ("`var` of 20,000 names", "", "var " + names(20000) + ";"),
    ("`switch` through 20,000 empty clauses", "", "switch (1) { " + "case 1: " * 20000 + " }"),
    ("`length` of an Array of 20,000 written as it is", ARRAY, "a.length = 20000;"),
    ("`delete` of the first name of 20,000", ARRAY + "var n = 0;", "delete a[+n]; n += 1;"),
    ("`pop` and `push` on an Array of 20,000", ARRAY, "a.pop(); a.push(1);"),
    ("`ADSAFE.get`, a name of 200,000 units", 'var o = {}, s = %s%s";' % (LONG, "x" * 100000), "x = ADSAFE.get(o, s);"),
    ("`ADSAFE.has`, the same", 'var o = {}, s = %s%s";' % (LONG, "x" * 100000), "x = ADSAFE.has(o, s);"),
    ("`ADSAFE.remove`, the same", 'var o = {}, s = %s%s";' % (LONG, "x" * 100000), "ADSAFE.remove(o, s);"),
    ("`hasOwnProperty`, the same", 'var o = {}, s = %s%s";' % (LONG, "x" * 100000), "x = o.hasOwnProperty(s);"),
    ("`ADSAFE.get` along a chain of 100", CHAIN, 'x = ADSAFE.get(o, "y");'),
    ("`ADSAFE.set`", "var o = {};", 'ADSAFE.set(o, "a", 1);'),
    ("`ADSAFE.create` on a chain of 90", "var o = {}; for (i = 0; i < 90; i += 1) { o = ADSAFE.create(o); }",
     "x = ADSAFE.create(o);"),
    ("`ADSAFE.isArray`", "var a = [];", "x = ADSAFE.isArray(a);"),
    ("`ADSAFE.keys` of 10 names", "var o = {a:1,b:2,c:3,d:4,e:5,f:6,g:7,h:8,i:9,j:10};", "x = ADSAFE.keys(o);"),
    ("`ADSAFE.later`, which throws where 64 wait", "for (i = 0; i < 64; i += 1) { ADSAFE.later(f, 9); }",
     "try { ADSAFE.later(f, 9); } catch (e) { x = 1; }"),
    ("`ADSAFE.log` of one unit", "", 'ADSAFE.log("a");'),
    ("`ADSAFE.post`, kept or not", "", 'ADSAFE.post("B_", "a");'),
    ("`fromJson` of 200,000 units that end badly", 'var s = "[%s";' % ("1," * 100000),
     "try { ADSAFE.fromJson(s); } catch (e) { x = 1; }"),
    ("`fromJson` of 200,000 units with a bad name", "var s = '[%s{\"eval\":1}]';" % ("1," * 100000),
     "try { ADSAFE.fromJson(s); } catch (e) { x = 1; }"),
    ("`fromJson` of 250,000 units, one name again and again, that end badly", "var s = '{%s';" % ('"a":1,' * 41000), FROM),
    ("`fromJson` of 250,000 units, objects, that end badly", "var s = '[%s';" % ('{"a":1},' * 31000), FROM),
    ("`fromJson` of 250,000 units, floats, that end badly", "var s = '[%s';" % ("1e9," * 62000), FROM),
    ("`fromJson` of 250,000 units that end badly, which are a name too",
     "var o = {}, s = '[%s'; ADSAFE.set(o, s, 1);" % ("1," * 125000), "x = ADSAFE.get(o, s); " + FROM),
    ("`fromJson` of 250,000 units, one text, that end badly", "var s = '\"%s';" % ("x" * 250000), FROM),
    ("`fromJson` of 166,000 units, escapes, that end badly", "var s = '\"%s';" % ("\\\\n" * 83000), FROM),
    ("`fromJson` of 250,000 units behind a bad name", "var s = '[{\"eval\":1}%s]';" % (",1" * 120000), FROM),
    ("`fromJson` of 250,000 units, a bad name in each member",
     "var s = '{%s\"b\":1}';" % "".join('"a%d":{"eval":1},' % place for place in range(12500)), FROM),
    ("`fromJson` of 250,000 units, two bad names of which the second is written over",
     "var s = '{\"a\":{\"eval\":1},\"b\":{\"eval\":1},%s\"c\":1}';" % ('"b":1,' * 41000), FROM),
    ("`fromJson` of 20,000 units", 'var s = "[%s1]";' % ("1," * 10000), "x = ADSAFE.fromJson(s);"),
    ("`toJson` of 32,768 units", TEXT, "x = ADSAFE.toJson(s);"),
    ("`toJson` of 32,768 units and undefined", TEXT + "var a = [s, undefined];",
     "try { ADSAFE.toJson(a); } catch (e) { x = 1; }"),
    ("`toJson` of seven texts of 9,000 units and undefined",
     'var s = "%s", a = [s, s, s, s, s, s, s, undefined];' % ("x" * 9000), TO),
    ("`toJson` of a text of 32,000 quotes and undefined", "var s = '%s', a = [s, undefined];" % ('"' * 32000), TO),
    ("`toJson` of an Object of 5,000 names, of which the first was removed, that ends in undefined",
     "var a = {%s, z: undefined}; ADSAFE.remove(a, 'n0');" % ", ".join("n%d: 1" % place for place in range(5000)), TO),
    ("`Math.max` of a text of 250,000 units that is no number", WORD, "x = Math.max(s, s);"),
    ("`-` of a text of 250,000 units that is no number", WORD, "x = s - s;"),
    ("`slice`, the same in place of a number", WORD, 'x = "a".slice(s, s);'),
    ("`charAt`, the same", WORD, 'x = "a".charAt(s);'),
    ("`===` of texts of 125,000 units that differ at the end", PAIR, "x = s === t;"),
    ("`<` of the same", PAIR, "x = s < t;"),
    ("`case` of the same", PAIR, "switch (s) { case t: x = 1; }"),
    ("`===` of a text of 250,000 units and itself", WORD + " var t = s;", "x = s === t;"),
    ("`Math.max` of a text of 200,000 digits", 'var s = "%s1";' % ("0" * 200000), "x = Math.max(s, s);"),
    ("`Math.pow`", "", "x = Math.pow(3, 33);"),
    ("`Math.pow` of 1 and 9007199254740991", "", "x = Math.pow(1, 9007199254740991);"),
    ("`Number` of a text of 32,768 units", TEXT, "x = Number(s);"),
    ("`parseInt` of 32,768 digits", TEXT.replace("x", "0"), "x = parseInt(s);"),
    ("`String.fromCharCode`", "", "x = String.fromCharCode(97);"),
    ("`charAt` on a text of 32,768 units", TEXT, "x = s.charAt(1);"),
    ("`charCodeAt` on `ab`", "", 'x = "ab".charCodeAt(1);'),
    ("`indexOf` of `x..xy` in `x..x`", TEXT + "var t = s.slice(16384) + 'y';", "x = s.indexOf(t);"),
    ("`lastIndexOf` of `yx..x` in `x..x`", TEXT + "var t = 'y' + s.slice(16384);", "x = s.lastIndexOf(t);"),
    ("`split` of 2,000 units one by one", TEXT + "var t = s.slice(0, 2000);", 'x = t.split("");'),
    ("`toUpperCase` of 32,768 units", TEXT, "x = s.toUpperCase();"),
    ("`concat` of an Array of 20,000", ARRAY, "x = a.concat(a);"),
    ("`join` of an Array of 10,000", ARRAY.replace("20000", "10000"), "x = a.join('').length;"),
    ("`reverse` of an Array of 20,000", ARRAY, "a.reverse();"),
    ("`sort` of an Array of 20,000 numbers", ARRAY, "a.sort();"),
    ("`sort` of 10,000 texts of 32,768 units", TEXTS, "a.sort();"),
    ("`shift` and `unshift` on an Array of 20,000", ARRAY, "a.unshift(a.shift());"),
    ("`slice` of an Array of 20,000 from its end", ARRAY, "x = a.slice(19999);"),
    ("`splice` in an Array of 20,000", ARRAY, "x = a.splice(5, 1, 7);"),
    ("`forEach` of an Array of 1,000", "var a = []; for (i = 0; i < 1000; i += 1) { a[+i] = i; }", "a.forEach(f);"),
    ("`dom.q` of 100,000 spaces", "var q = '%s*';" % (" " * 100000), "x = dom.q(q);"),
    ("`dom.q` with 16,384 filters, on one node with 1,001 classes", 'var q = ".a"; ' + DOUBLED, "x = dom.q(q);",
     '<p class="%sa">hi</p>' % ("b " * 1000)),
    ("`dom.q` with 8,192 filters, on 100 nodes", 'var q = ":even"; ' + DOUBLED.replace("*", "b"), "x = dom.q(q);",
     "<i></i>" * 100),
    ("`dom.q` with 16,384 filters, on 100 nodes", 'var q = ".a"; ' + DOUBLED, "x = dom.q(q);", '<i class="a"></i>' * 100),
    ("`dom.q` of 60,000 filters `.b`, on one node with 60,000 words", "var q = '*%s';" % (".b" * 60000), "x = dom.q(q);",
     '<p class="%s">hi</p>' % ("a " * 59999 + "b")),
    ("`dom.q` of 20,000 filters, on one node with 25,000 words", "var q = '*%s';" % "".join("." + w for w in WORDS[:20000]),
     "x = dom.q(q);", '<p class="%s">hi</p>' % " ".join(WORDS)),
    ("`dom.q` of 8,000 filters, on nine nodes with 8,000 words",
     "dom.q('i').klass(dom.q('p').getClass()); var q = '*%s';" % "".join("." + w for w in WORDS[:8000]),
     "x = dom.q(q);", '<p class="%s">hi</p>' % " ".join(WORDS[:8000]) + "<i></i>" * 8),
    ("`dom.q` of 129,000 filters `.a` and `!`", "var q = '*%s!';" % (".a" * 129000),
     "try { dom.q(q); } catch (e) { x = 1; }"),
    ("`dom.q` of 28,000 filters `[title=a]`", "var q = '*%s';" % ("[title=a]" * 28000), "x = dom.q(q);",
     '<p title="a">hi</p>'),
    ("`dom.q` of 61 filters, on one node with 130,000 words", "var q = '*%s';" % "".join("." + w for w in SINGLES),
     "x = dom.q(q);", '<p class="%s%s">hi</p>' % ("a " * 129900, " ".join(SINGLES))),
    ("`dom.q` of 8 filters, on one node with 130,000 words", "var q = '*%s';" % "".join("." + w for w in SINGLES[:8]),
     "x = dom.q(q);", '<p class="%s%s">hi</p>' % ("a " * 129900, " ".join(SINGLES))),
    ("`dom.q` of 32,000 filters `.a` and as many `.b` in turn", "var q = '*%s';" % (".a.b" * 32000), "x = dom.q(q);",
     '<p class="a b">hi</p>'),
    ("`dom.q` of 43,000 filters `:first`", "var q = '*%s';" % (":first" * 43000), "x = dom.q(q);"),
    ("`dom.q` of `[style=a]`, 18 styles of 256 units", "", 'x = dom.q("*[style=a]");', '<p style="%s">hi</p>' % STYLE),
    ("`dom.q` of `[style=a]`, on 48 nodes with 18 styles of 256 units", "", 'x = dom.q("*[style=a]");',
     '<p style="%s">hi</p>' % STYLE * 48),
    ("`dom.q` of all 16,000 nodes", "", 'x = dom.q("b");', MANY),
    ("`dom.q` of one by its id, of 16,000 nodes", "", 'x = dom.q("#A_x");', '<p id="A_x"></p>' + MANY),
    ("`dom.q` with 32 steps, 198 deep", "var q = '%s';" % ("* " * 32), "x = dom.q(q);", NEST),
    ("`count` of 16,000 nodes", "var b = dom.q('i');", "x = b.count();", MANY),
    ("`getValue` of the root over 16,000 nodes", "var b = dom.q('i:first').getParent();", "x = b.getValue();", MANY),
    ("`getValues` of 198 nodes in one another", "var b = dom.q('div');", "x = b.getValues();", NEST),
    ("`getStyle`, 18 styles of 256 units", "var b = dom.q('p');", 'x = b.getStyle("z-index");', '<p style="%s">hi</p>' % STYLE),
    ("`style`, 18 styles of 256 units", "var b = dom.q('p');", 'b.style("z-index", "1");', '<p style="%s">hi</p>' % STYLE),
    ("`getParent` of 16,000 nodes", "var b = dom.q('i');", "x = b.getParent();", MANY),
    ("`getClass`", "var b = dom.q('p');", "x = b.getClass();"),
    ("`getTagName`", "var b = dom.q('p');", "x = b.getTagName();"),
    ("`getTitle`", "var b = dom.q('p');", "x = b.getTitle();"),
    ("`getMark`", "var b = dom.q('p');", "x = b.getMark();"),
    ("`getCheck`", "var b = dom.q('p');", "x = b.getCheck();"),
    ("`explode` of 100 nodes", "var b = dom.q('i');", "x = b.explode();", "<i></i>" * 100),
    ("`each` of 100 nodes", "var b = dom.q('i');", "b.each(f);", "<i></i>" * 100),
    ("`klass` of 100,000 units that end badly", "var b = dom.q('p'), s = %s!\";" % LONG,
     "try { b.klass(s); } catch (e) { x = 1; }"),
    ("`klass` of 16,000 nodes", "var b = dom.q('i');", "b.klass('a');", MANY),
    ("`title`", "var b = dom.q('p');", "b.title('a');"),
    ("`check` and `enable`", "var b = dom.q('input');", "b.check(true); b.enable(true);", "<input>"),
    ("`mark`", "var b = dom.q('p');", "b.mark('a');"),
    ("`protect` of 16,000 nodes", "var b = dom.q('i');", "b.protect();", MANY),
    ("`focus` and `blur`", "var b = dom.q('p');", "b.focus(); b.blur();"),
    ("`value` of a `p`", "var b = dom.q('p');", "b.value('');"),
    ("`dom.tag`", "", "x = dom.tag('i');"),
    ("`dom.tag` of a name of 100,000 units", "var s = %s\";" % LONG, "try { dom.tag(s); } catch (e) { x = 1; }"),
    ("`dom.text`", "", "x = dom.text('i');"),
    ("`remove` and `append` of 16,000 nodes", "var b = dom.q('i');", "b.remove(); dom.append(b);", MANY),
    ("`append` of 16,000 nodes that ends in E10", "var b = dom.q('i'), p = dom.q('p');", E10, MANY + "<i><p></p></i>"),
    ("`append` of 15,800 nodes to one 198 deep that ends in E10", "var b = dom.q('i'), p = dom.q('p');", E10,
     "<i></i>" * 15800 + "<i>" + "<div>" * 196 + "<p></p>" + "</div>" * 196 + "</i>"),
    ("`append` of 15,800 nodes, 196 in one another, that ends in E10", "var b = dom.q('i'), p = dom.q('p');", E10,
     ("<i>" * 196 + "</i>" * 196) * 80 + "<i>" * 198 + "</i>" * 198 + "<div><div><p></p></div></div>"),
    ("`append` of 8,000 nodes to 8,000 that ends in E10", "var b = dom.q('i'), p = dom.q('b');", E10,
     "<i></i><b></b>" * 8000 + "<i><b></b></i>"),
    ("`append` of the first of 16,000 behind the last, one by one", "var b = dom.q('i'), a = b.explode(), n = 0, p = b.getParent();",
     "p.append(a[+n]); n = n === 15999 ? 0 : n + 1;", MANY),
    ("`remove` of the first of 16,000, and `append`", "var b = dom.q('i'), a = b.explode(), n = 0, p = b.getParent();",
     "a[+n].remove(); p.append(a[+n]); n = n === 15999 ? 0 : n + 1;", MANY),
    ("`append` of one node at a depth of 199", "var b = dom.q('i'), c = dom.tag('b');", "b.append(c); c.remove();",
     "<div>" * 197 + "<i></i>" + "</div>" * 197),
    ("`replace` of one node by 16,000", "var b = dom.q('i'), c = b.q('i'), p = dom.q('p'), d = dom.q('i:first');",
     "p.replace(b); d.replace(p);", "<p></p>" + MANY),
    ("`on` and `off`", "var b = dom.q('p');", "b.on('y', f); b.off('y');"),
    ("`off` beside 60,000 handlers", LISTEN, "b.off('x');"),
    ("`fire` beside 60,000 handlers", LISTEN, "b.fire('x');"),
    ("`fire` at a depth of 198", "var b = dom.q('i');", "b.fire('x');", "<div>" * 197 + "<i></i>" + "</div>" * 197),
    ("`fire` to one handler", "var b = dom.q('p'); b.on('x', f);", "b.fire('x');"),
    ("a name of the outermost of 60 functions", None, "x = y;"),
]


def body(setup, step, passes):
    loop = "for (i = %d; i; i--) { %s }" % (passes, step)
    if setup is None:
        setup, loop = "var y = 1;", nested(60, "var i; " + loop)
    return "var i, x; function f() { return 1; } %s %s" % (setup, loop)


def taken(setup, step, markup):
    """Passes, what they take in milliseconds and units, and how the widget ends; some 150 ms, within one turn."""
    def once(passes):
        time, _, lines = ran(page([body(setup, step, passes)], markup), times=3)
        return time, lines[0]

    start, first = once(0)
    passes = 1
    while True:
        time, line = once(passes)
        units = line["spent"] - first["spent"]
        if time - start > 150 or first["spent"] + 4 * units > FUEL or passes > 65536 or line["state"] != "live":
            return passes, time - start, units, line["state"]
        passes *= 4


def main():
    passes, time, units, _ = taken("", "", "<p>hi</p>")
    pass_time, pass_units = time / passes, units // passes
    unit = pass_time / pass_units
    print("An empty loop: %.3f us a pass, %d units, %.0f ns a unit" % (pass_time * 1000, pass_units, unit * 1e6))
    found = []
    for row in ROWS:
        name, setup, step, markup = row if len(row) == 4 else row + ("<p>hi</p>",)
        passes, time, units, state = taken(setup, step, markup)
        each, units = time / passes - pass_time, units / passes - pass_units
        found.append((each / max(units, 1), name, state, units, each * 1000))
        print(name, state, file=sys.stderr)
    cheapest = min(cost for cost, *_ in found if cost > 0)
    print("| Step | Units | us | ns a unit | times the loop | s a turn of 100,000 units |")
    print("|---|---|---|---|---|---|")
    for cost, name, state, units, micro in sorted(found, reverse=True):
        print("| %s%s | %.0f | %.1f | %.1f | %.2f | %.1f |"
              % (name, "" if state == "live" else ", " + state, units, micro, cost * 1e6, cost / unit, cost * 100))
    dear = [name for cost, name, *_ in found if cost > 100 * unit]
    print("The dearest is %.0f times a unit of the loop, the cheapest %.4f times." % (max(found)[0] / unit, cheapest / unit))
    print("Over 100 times a unit of the loop: " + ("; ".join(dear) or "none"))
    sys.exit(bool(dear))


if __name__ == "__main__":
    main()
