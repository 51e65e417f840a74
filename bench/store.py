"""The time of one call of the store or of an operator, in nanoseconds.

The program makes the named call so many times; what a loop of "nothing" takes is subtracted. The number of
calls fits the limits of a widget (524,288 cells, 1,048,576 slots).
"""
from measure import best

CALLS = {
    "put": 2000000, "get": 2000000, "get of the prototype": 2000000, "get of none": 2000000,
    "variable, 1 scope": 2000000, "variable, 20 scopes": 500000, "assign, 1 scope": 2000000, "assign, 20 scopes": 500000,
    "object": 250000, "object of 4 names": 100000, "object, put of a new name": 200000,
    "scope of no names": 250000, "scope of 4 names": 100000,
    "binary, +": 5000000, "binary, <": 5000000, "binary, + of texts": 500000,
}


def took(call, count):
    """Milliseconds and megabytes of so many calls."""
    status, time, memory, _ = best({}, [call, str(count)], 5)
    if status != 0:
        raise SystemExit("%s, %d times: status %d" % (call, count, status))
    return time, memory


def main():
    print("| Call | Nanoseconds | Bytes |")
    print("|---|---|---|")
    for call, count in CALLS.items():
        time, memory = took(call, count)
        least, start = took("nothing", count)
        kept = (memory - start) * 2 ** 20 / count
        print("| %s | %.1f | %s |" % (call, (time - least) * 1e6 / count, "%.0f" % kept if kept > 20 else ""))


main()
