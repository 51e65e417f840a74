"""Memory of a page of large libraries, and the time of a large library of ordinary code."""
import os
import re
import sys

from measure import HERE, best


def products():
    """A page with sixteen libraries of one long product."""
    files, libs = {}, []
    for number in range(16):
        start, end = 'ADSAFE.lib("m%d", function (lib) { return 1' % number, "; });\n"
        files["m%d.js" % number] = start + "*2" * ((262144 - len(start) - len(end)) // 2) + end
        libs.append('"m%d.js"' % number)
    files["m.json"] = '{"version":1,"page":[],"libs":[' + ",".join(libs) + "]}"
    return files


def used_products():
    """The same with a widget that uses them all."""
    files = products()
    scripts = "".join('<script src="m%d.js"></script>' % number for number in range(16))
    files["a.html"] = (
        '<div id="A_"><script>ADSAFE.id("A_");</script>' + scripts
        + '<script>ADSAFE.go("A_", function (dom, lib) { });</script></div>'
    )
    files["m.json"] = files["m.json"].replace('"page":[]', '"page":[{"widget":"A_","file":"a.html"}]')
    return files


def ordinary():
    """The functions of the libraries that ship, again and again."""
    folder = os.path.join(HERE, "../examples/gadgets")
    bodies = []
    for name in sorted(os.listdir(folder)):
        if name.endswith(".js"):
            text = open(os.path.join(folder, name)).read()
            bodies.append(re.search(r"function \(\w*\) \{(.*)\}\);", text, re.S)[1])
    text, number = 'ADSAFE.lib("m", function (lib) {\n    "use strict";\n', 0
    while True:
        part = "    function part%d(lib) {%s}\n" % (number, bodies[number % len(bodies)])
        if len(text) + len(part) > 261700:
            return {"m.js": text + "});\n"}
        text, number = text + part, number + 1


def main():
    good = True
    for name, files, words, megabytes, goal in [
        ("memory of a page of 16 libraries that no slot names", products(), ["check", "m.json"], True, 120),
        ("memory of a page of 16 libraries that a slot names", used_products(), ["check", "m.json"], True, 120),
        ("time of a library of 261,000 bytes", ordinary(), ["check-lib", "m.js"], False, 10),
    ]:
        status, time, memory, _ = best(files, words, 3 if megabytes else 15)
        good = good and status == 0 and (memory if megabytes else time) <= goal
        print("%s: status %d, %.1f ms, %.0f MB; at most %d %s are wanted"
              % (name, status, time, memory, goal, "MB" if megabytes else "ms"))
    sys.exit(not good)


if __name__ == "__main__":
    main()
