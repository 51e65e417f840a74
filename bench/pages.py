"""Makes pages of widgets, and runs them."""
import json

from measure import best

FUEL = 1000000


def name_of(slot):
    """The names of slots are A_ to P_."""
    return chr(ord("A") + slot) + "_"


def widget(name, body, markup="<p>hi</p>", libs=()):
    """The file of a widget: its markup, the libraries that it uses, and the body of its function."""
    scripts = '<script>ADSAFE.id("%s");</script>' % name if libs else ""
    scripts += "".join('<script src="%s"></script>' % lib for lib in libs)
    go = '<script>ADSAFE.go("%s", function (dom, lib) {%s});</script>' % (name, body)
    return '<div id="%s">%s%s%s</div>' % (name, markup, scripts, go)


def library(name, body):
    """The file of a library, by its path."""
    return {name + ".js": 'ADSAFE.lib("%s", function (lib) {%s});\n' % (name, body)}


def manifest(entries, fuel=FUEL, libs=(), channels=()):
    """The channels are pairs of the numbers of slots."""
    pairs = [[name_of(sender), name_of(receiver)] for sender, receiver in channels]
    return json.dumps({"version": 2, "page": entries, "fuel": fuel, "libs": list(libs), "channels": pairs})


def page(bodies, markup="<p>hi</p>", fuel=FUEL, html="", libs=None, channels=()):
    """The files of a page of widgets with these bodies, behind the host's own markup."""
    libs = libs or {}
    entries = [{"html": html}] if html else []
    files = dict(libs)
    for slot, body in enumerate(bodies):
        name = name_of(slot)
        files["w%d.html" % slot] = widget(name, body, markup, list(libs))
        entries.append({"widget": name, "file": "w%d.html" % slot})
    files["m.json"] = manifest(entries, fuel, libs, channels)
    return files


def click(path, slot=0):
    return {"to": name_of(slot), "event": "click", "path": path}


def advance(milliseconds):
    return {"advance": milliseconds}


def swap(slot, file):
    return {"swap": name_of(slot), "file": file}


def traced(files, items):
    """The files, and the trace of these items."""
    return dict(files, **{"t.json": json.dumps({"version": 2, "items": items}, separators=(",", ":"))})


def ran(files, items=None, slice=1000000, times=1):
    """Milliseconds, megabytes and the lines of a run; without items it is `render`."""
    words = ["render", "m.json"]
    if items is not None:
        files, words = traced(files, items), ["replay", "m.json", "t.json", str(slice)]
    status, time, memory, out = best(files, words, times)
    if status not in (0, 1):
        return time, memory, [{"state": "status %d" % status, "spent": 0, "turns": 0, "log": [], "uncaught": []}]
    return time, memory, [json.loads(line) for line in out.splitlines()]
