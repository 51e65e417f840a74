"""Compares texts that were chosen to be dear with plain ones of the same lengths.

Texts collide where they share the low bits of SipHash-1-3 with the key 0, by which a table without
keys finds its first place. Two ways to feed it are tried: `mixed`, one word that a text was mixed to
beforehand, and `fed`, the units of the text, four to a word.
"""
import os
import random
import subprocess
import sys
import tempfile

from measure import best

SEARCH = r"""
#include <stdint.h>
#include <stdio.h>
#include <stdlib.h>
#include <string.h>
typedef uint64_t u64;
static u64 v0, v1, v2, v3;
static u64 turn(u64 x, int n) { return x << n | x >> (64 - n); }
static void step(void) {
    v0 += v1; v2 += v3; v1 = turn(v1, 13) ^ v0; v3 = turn(v3, 16) ^ v2; v0 = turn(v0, 32);
    v2 += v1; v0 += v3; v1 = turn(v1, 17) ^ v2; v3 = turn(v3, 21) ^ v0; v2 = turn(v2, 32);
}
static void word(u64 m) { v3 ^= m; step(); v0 ^= m; }
static u64 sip(const u64 *words, int n) {
    v0 = 0x736f6d6570736575; v1 = 0x646f72616e646f6d; v2 = 0x6c7967656e657261; v3 = 0x7465646279746573;
    for (int i = 0; i < n; i++) word(words[i]);
    word((u64)n * 8 << 56);
    v2 ^= 0xff; step(); step(); step();
    u64 hash = v0 ^ v1 ^ v2 ^ v3;
    return hash ^ hash >> 32;
}
static u64 mixed(const char *name) {
    u64 h = 0x9E3779B97F4A7C15;
    for (; *name; name++) h = (h ^ (unsigned char)*name) * 0x9E3779B97F4A7C15;
    return sip(&h, 1);
}
static u64 fed(const char *name) {
    u64 words[64] = {0};
    int n = strlen(name);
    for (int i = 0; i < n; i++) words[i / 4] |= (u64)(unsigned char)name[i] << 16 * (i % 4);
    words[n / 4] |= (u64)(n % 4) << 48;
    return sip(words, n / 4 + 1);
}
int main(int argc, char **argv) {
    const char *start = argv[2], *letters = "abcdefghijklmnopqrstuvwxyz";
    int count = atoi(argv[3]), bits = atoi(argv[4]), n = strlen(start);
    char name[64];
    for (u64 at = 0; count > 0; at++) {
        u64 rest = at * 0x9E3779B1 % 308915776;
        strcpy(name, start);
        for (int i = 0; i < 6; i++, rest /= 26) name[n + i] = letters[rest % 26];
        name[n + 6] = 0;
        u64 hash = argv[1][0] == 'm' ? mixed(name) : fed(name);
        if ((hash & ((1ull << bits) - 1)) == 0) { puts(name); count--; }
    }
}
"""


def colliding(way, start, count, bits):
    """Names of six letters behind a start, whose hashes share their low bits."""
    with tempfile.TemporaryDirectory() as folder:
        program = os.path.join(folder, "search")
        subprocess.run(["cc", "-O2", "-x", "c", "-o", program, "-"], input=SEARCH.encode(), check=True)
        found = subprocess.run([program, way, start, str(count), str(bits)], stdout=subprocess.PIPE, check=True)
    return found.stdout.decode().split()


def plain(names):
    """Other names of the same lengths, with the same first letters, in no order."""
    letters, chance, others = "abcdefghijklmnopqrstuvwxyz", random.Random(1), set()
    start = os.path.commonprefix(names) if names[0].startswith("A_") else ""
    while len(others) < len(names):
        length = len(names[len(others)]) - len(start)
        others.add(start + "".join(chance.choice(letters) for _ in range(length)))
    return sorted(others, key=lambda name: chance.random())


def library(names):
    return {"m.js": 'ADSAFE.lib("m", function (lib) { var ' + ",".join(names) + "; });\n"}, ["check-lib", "m.js"]


def page(widget):
    manifest = '{"version":1,"page":[{"widget":"A_","file":"a.html"}]}'
    return {"m.json": manifest, "a.html": widget}, ["check", "m.json"]


END = '<script>ADSAFE.go("A_", function (dom, lib) { });</script></div>'


def ids(names):
    return page('<div id="A_">' + "".join('<br id="%s">' % name for name in names) + END)


def attributes(names):
    return page('<div id="A_"><p ' + " ".join(name + '=""' for name in names) + "></p>" + END)


def rows():
    for way in "mixed", "fed":
        yield "36,000 variables, " + way, library, colliding(way, "", 36000, 13)
        yield "13,700 ids, " + way, ids, colliding(way, "A_", 13700, 11)
        yield "20,000 attributes of one tag, " + way, attributes, colliding(way, "", 20000, 12)
    tails = ["%s%s%s%s" % (a, b, c, d) for a in "abcdefgh" for b in "abcdefgh" for c in "abcdefgh" for d in "abc"]
    yield "1,300 variables of 196 letters, alike but for four", library, ["q" * 192 + tail for tail in tails[:1300]]
    yield "1,200 ids of 194 letters, alike but for four", ids, ["A_" + "q" * 190 + tail for tail in tails[:1200]]


def main():
    worst = 0
    print("| texts | chosen, ms | plain, ms | times |")
    print("|---|---|---|---|")
    for name, shape, names in rows():
        (_, chosen, _, said), (_, other, _, also) = best(*shape(names)), best(*shape(plain(names)))
        if said != also:
            sys.exit("the answers differ: " + said + also)
        worst = max(worst, chosen / other)
        print("| %s | %.1f | %.1f | %.2f |" % (name, chosen, other, chosen / other))
    print("The worst is %.2f times; at most 2 are wanted." % worst)
    sys.exit(worst > 2)


if __name__ == "__main__":
    main()
