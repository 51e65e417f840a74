"""Time and memory of `check-audit` on certificates of the greatest length."""
import itertools
import sys

from measure import best

LIMIT = 16777216


def filled(head, parts, tail):
    """As many of the parts between head and tail as a certificate has room for."""
    text, length = [head], len(head) + len(tail)
    for part in parts:
        if length + len(part) > LIMIT:
            return "".join(text) + tail
        text.append(part)
        length += len(part)


def held(*refs):
    """A widget with one cell, which holds these again and again."""
    return filled("reach 1\nwidget A_\nc 0 array\nheld", itertools.cycle(" " + ref for ref in refs), "\nend\n")


def rows(what):
    """A widget with as many cells of this kind and with these references."""
    return filled("reach 1\nwidget A_\n", ("c %d %s\n" % (n, what) for n in itertools.count()), "held\nend\n")


def strangers():
    """References to as many widgets as there are names for."""
    names = ("".join(letters) for letters in itertools.product("ABCDEFGHIJKLMNOPQRSTUVWXYZ", repeat=5))
    return filled("reach 1\nwidget A_\nheld", (" %s_:0" % name for name in names), "\nend\n")


def main():
    cases = [
        ("`host`", held("host")),
        ("`raw`", held("raw")),
        ("own cells", held("A_:0")),
        ("cells of two others", held("B_:0", "A_:0", "C_:0")),
        ("great numbers", held("A_:4294967295")),
        ("cells without references", rows("array")),
        ("cells with a reference", rows("array raw")),
        ("cells with four references", rows("object host A_:7 A_:8 host")),
        ("a new name each", strangers()),
    ]
    met = True
    for name, text in cases:
        status, time, memory, answer = best({"c.txt": text}, ["check-audit", "c.txt"], 5)
        times = memory * 1048576 / len(text)
        met = met and status in (0, 1) and time < 1000 and times <= 8
        print("%s: %.0f ms, %.0f MB, %.1f times the bytes; %s" % (name, time, memory, times, answer.strip()))
    sys.exit(not met)


if __name__ == "__main__":
    main()
