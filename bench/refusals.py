"""A page with channels, swaps and an audit where each allocation, each read and each write fails in turn.

A library that is loaded before the others stands in for malloc, realloc, open, read and write. The Nth
call of a kind fails, or it and all behind it. It needs a C compiler `cc`.
"""
import collections
import os
import subprocess
import sys
import tempfile
from concurrent.futures import ThreadPoolExecutor

from measure import HERE, PROGRAM

FAILS = r"""
#define _GNU_SOURCE
#include <dlfcn.h>
#include <errno.h>
#include <fcntl.h>
#include <malloc.h>
#include <stdarg.h>
#include <stdio.h>
#include <stdlib.h>
#include <string.h>
#include <unistd.h>
enum { GROWTH, OPEN, READ, WRITE, KINDS };
static const char *names[KINDS] = {"growth", "open", "read", "write"};
static long counts[KINDS], first = -1, last = -1, most = -1;
static int failing = -1;
static void begin(void) {
    if (first >= 0) return;
    first = last = 0;
    const char *kind = getenv("FAIL_KIND"), *from = getenv("FAIL_FROM"), *to = getenv("FAIL_TO"), *size = getenv("MOST");
    for (int k = 0; kind && k < KINDS; k++) if (!strcmp(kind, names[k])) failing = k;
    if (from) first = atol(from);
    if (to) last = atol(to);
    if (size) most = atol(size);
}
static int fails(int kind) {
    begin();
    long n = ++counts[kind];
    return kind == failing && n >= first && n <= last;
}
#define REAL(name) static __typeof__(&name) real; if (!real) real = dlsym(RTLD_NEXT, #name)
void *malloc(size_t n) { REAL(malloc); if (fails(GROWTH)) { errno = ENOMEM; return 0; } return real(n); }
void *realloc(void *p, size_t n) {
    REAL(realloc);
    if (p && n <= malloc_usable_size(p)) return real(p, n);
    if (fails(GROWTH)) { errno = ENOMEM; return 0; }
    return real(p, n);
}
int open(const char *path, int flags, ...) {
    REAL(open);
    va_list rest; va_start(rest, flags); int mode = va_arg(rest, int); va_end(rest);
    if (fails(OPEN)) { errno = EIO; return -1; }
    return real(path, flags, mode);
}
ssize_t read(int file, void *to, size_t n) {
    REAL(read);
    if (fails(READ)) { errno = EIO; return -1; }
    return real(file, to, most >= 0 && n > (size_t)most ? (size_t)most : n);
}
ssize_t write(int file, const void *from, size_t n) {
    REAL(write);
    if (fails(WRITE)) { errno = EIO; return -1; }
    return real(file, from, most >= 0 && n > (size_t)most ? (size_t)most : n);
}
__attribute__((destructor)) static void told(void) {
    char text[200];
    int at = 0;
    for (int k = 0; k < KINDS; k++) at += snprintf(text + at, sizeof text - at, "%s %ld\n", names[k], counts[k]);
    const char *path = getenv("COUNTS");
    FILE *out = path ? fopen(path, "w") : 0;
    if (out) { fputs(text, out); fclose(out); }
}
"""


MARKET = os.path.join(HERE, "../examples/market")
# The words, the stored answer of an undisturbed run where there is one, and its status.
FORMS = [
    ("check m.json", "check.jsonl", 0),
    ("render m.json", "render.jsonl", 0),
    ("replay m.json t-swap.json 7", "replay-swap.jsonl", 1),
    ("audit m.json t.json 1000", "audit.txt", 0),
    ("audit m.json t-swap.json 7", "audit-swap.txt", 1),
    ("check-audit audit-swap.txt", None, 0),
    ("check-audit leaking.txt", None, 1),
    ("check-lib money.js", None, 0),
    ("tidy money.js", None, 0),
    ("demo 40", None, 0),
]
ALL = 1 << 40


class Shim:
    """The library that fails calls, compiled into a folder."""

    def __init__(self, folder):
        self.folder, self.library = folder, os.path.join(folder, "fails.so")
        source = os.path.join(folder, "fails.c")
        with open(source, "w") as file:
            file.write(FAILS)
        subprocess.run(["cc", "-O1", "-shared", "-fPIC", "-o", self.library, source, "-ldl"], check=True)

    def run(self, words, kind="none", first=0, last=0, most=None, counts=None):
        """The status and what was written."""
        setting = {"LD_PRELOAD": self.library, "FAIL_KIND": kind, "FAIL_FROM": str(first), "FAIL_TO": str(last)}
        setting.update({"MOST": str(most)} if most else {}, **({"COUNTS": counts} if counts else {}))
        ran = subprocess.run([PROGRAM] + words, cwd=MARKET, env=setting, stdout=subprocess.PIPE, stderr=subprocess.PIPE)
        return ran.returncode, ran.stdout

    def counts(self, words, most=None):
        """How many calls of each kind an undisturbed run makes."""
        path = os.path.join(self.folder, "counts")
        self.run(words, most=most, counts=path)
        with open(path) as file:
            return {kind: int(count) for kind, count in (line.split() for line in file)}


def judge(kind, whole, got, status):
    """Which stated end a run came to, or None: the whole answer, or the status of the fault and nothing else."""
    if got == whole:
        return "whole"
    if got == (status, b"") or kind == "write" and got[0] == status and whole[1].startswith(got[1]):
        return "status %d" % status
    return None


def failing(shim, words, whole, kind, status, most=None):
    """Each call of a kind fails in turn, alone and with all behind it. How many runs came to which end."""
    count = shim.counts(words, most)[kind]
    cases = [(n, last) for n in range(1, count + 1) for last in (n, ALL)]
    with ThreadPoolExecutor(os.cpu_count()) as workers:
        got = list(workers.map(lambda case: shim.run(words, kind, *case, most=most), cases))
    ends = [judge(kind, whole, run, status) for run in got]
    for case, run, end in zip(cases, got, ends):
        if end is None:
            print("%s: %s %d to %d ends with status %d and %d bytes" % (" ".join(words), kind, *case, run[0], len(run[1])))
    told = ", ".join("%d %s" % pair[::-1] for pair in collections.Counter(str(end) for end in ends).items())
    print("| `%s` | %s%s | %d | %s |" % (" ".join(words), kind, " of %d bytes" % most if most else "", count, told), flush=True)
    # A call that fails with all behind it is a fault in any case.
    return None not in ends and (kind == "growth" or "whole" not in ends)


def main():
    good = True
    print("| Words | What fails | Calls | Ends of the runs |\n|---|---|---|---|")
    with tempfile.TemporaryDirectory() as folder:
        shim = Shim(folder)
        for line, stored, status in FORMS:
            words = line.split()
            whole = shim.run(words)
            good = good and whole[0] == status
            if stored:
                with open(os.path.join(MARKET, stored), "rb") as file:
                    good = good and whole[1] == file.read()
            good = failing(shim, words, whole, "growth", 8) and good
            good = failing(shim, words, whole, "open", 6) and good
            for most in (None, 100):
                good = failing(shim, words, whole, "read", 6, most) and good
                good = failing(shim, words, whole, "write", 7, most) and good
            good = shim.run(words, most=1) == whole and good
    print("All ends are as wanted." if good else "Some ends are not as wanted.")
    sys.exit(not good)


if __name__ == "__main__":
    main()
