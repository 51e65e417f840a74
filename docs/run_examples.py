#!/usr/bin/env python3
"""Runs the examples of API.md, PITFALLS.md, RULES.md and rules.tsv and compares what they do with what is said.

    docs/run_examples.py [--try | --rows | PROGRAM] [PAGE ..]

Without a word the script `adhost` at the root of the repository is run; with `--try` the program that it
builds without any proof; else PROGRAM, a built program. The pages are those beside this script, or those that
are named. The last line counts the examples. The status is 0 where all do what their page says, and 1 where
one does not; each such one is told, with the page and the line.

With `--rows` nothing is run: the examples are written as the cases of crates/run_table/data/examples.jsonl, which
the gate runs. The status is 0 where that file has just these rows, and 1 where a page was changed since.

An example of a page is one of these.

- Behind an expression in backticks, `gives`, `throws` or `stops` and what comes, in backticks too. What comes
  is written as ADSAFE.toJson writes it where it is a text, an array or an object, and as ADSAFE.log does where
  it is another primitive; E1 to E12; or the state that stops the widget. Before the expression statements may
  stand, each with `; ` behind it. A `\\|` stands for `|`, as in a table.
- A block ```js. It is the body of the function of ADSAFE.go. A comment in it says what it does:
  `// logs TEXT` an entry of the log, in order; `// notes TEXT` an uncaught note; `// stops STATE` the state that
  ends the widget; `// spends N` the fuel of the whole run. What a comment does not say must not happen, but for
  the fuel. Behind the block may stand ```json items, the items of the trace, and ```html page, what is then
  within the widget's root. Before it may stand ```js lib, the text of a library that the widget names.
- A block ```html markup, the markup of the widget in all examples that follow, up to the next such block.
- A row `| RULE | WRITTEN | TOLD AT | WRITE |` of RULES.md: what is written breaks the rule, at a place where
  the text goes on with TOLD AT, and what to write is accepted. And the last column of rules.tsv is accepted.
"""

import glob
import json
import os
import re
import subprocess
import sys
import tempfile

HERE = os.path.dirname(os.path.abspath(__file__))
FAULTS = {
    "E1": "no property of undefined or null", "E2": "not a function", "E3": "bad receiver",
    "E4": "bad argument", "E5": "closed object", "E6": "no primitive value", "E7": "bad length",
    "E8": "bad name", "E9": "bad query", "E10": "bad place in the page", "E11": "too many timers",
    "E12": "chain too long",
}
SHORT = re.compile(r"`([^`]+)` (gives|throws|stops) `([^`]+)`")
CODE = re.compile(r"``\s(.+?)\s``|`([^`]+)`")
MARK = re.compile(r"//\s(logs|notes|stops|spends)(?:\s(.*))?$")
SHOW = """    function show(v) {
        return typeof v === "string" || (typeof v === "object" && v !== null) ? ADSAFE.toJson(v) : v;
    }
"""


class Example:
    """A widget, what it is given, and what its page says of it."""

    def __init__(self, at, markup, body):
        self.at, self.markup, self.body = at, markup, body
        self.libs, self.items, self.page = [], [], None
        self.log, self.notes, self.state, self.spent = [], [], "live", None

    def files(self):
        """The files of the example, by name."""
        libs = {re.search(r'ADSAFE\.lib\("(\w+)"', text)[1] + ".js": text for text in self.libs}
        scripts = "".join(f'<script src="{name}"></script>\n' for name in libs)
        scripts = '<script>ADSAFE.id("API_");</script>\n' + scripts if libs else ""
        widget = (f'<div id="API_">{self.markup}{scripts}<script>\nADSAFE.go("API_", function (dom, lib) {{\n'
                  f'{self.body}}});\n</script></div>\n')
        page = {"version": 1, "page": [{"widget": "API_", "file": "api.html"}], "libs": list(libs)}
        trace = {"version": 1, "items": self.items}
        return {"m.json": json.dumps(page), "t.json": json.dumps(trace), "api.html": widget, **libs}

    def words(self):
        """The words of the command line."""
        return ["replay", "m.json", "t.json", "1000"]

    def wanted(self):
        """The status and what of each line is wanted."""
        line = {"state": self.state, "log": self.log, "uncaught": self.notes}
        if self.spent is not None:
            line["spent"] = self.spent
        return 0, [line, {"page": self.page.strip() if self.page is not None else ""}]

    def faults(self, status, out):
        """What differs between the report and what is said of it."""
        lines = [json.loads(line) for line in out.splitlines()]
        if status != 0 or len(lines) != 2 or "state" not in lines[0]:
            return [f"status {status}, {out.strip()}"]
        line, page = lines[0], lines[1]["page"]
        said = [("state", self.state, line["state"]), ("log", self.log, line["log"]),
                ("uncaught", self.notes, line["uncaught"])]
        if self.spent is not None:
            said.append(("spent", self.spent, line["spent"]))
        if self.page is not None:
            inside = re.fullmatch(r'<body><div id="API_"[^>]*>(.*)</div></body>', page, re.S)[1]
            said.append(("page", self.page.strip(), inside.strip()))
        return [f"{what}: said {wanted!r}, is {found!r}" for what, wanted, found in said if wanted != found]


class Judged:
    """A library or a widget that breaks a rule, or none, with what stands where it is told."""

    def __init__(self, at, body, rule, told, is_whole=False):
        self.at, self.body, self.rule, self.told = at, body, rule, told
        self.is_library = body.startswith("ADSAFE.lib(") if is_whole else rule[0] == "A"
        markup, script = ("", f" {body} ") if body.startswith("ADSAFE.log(") else (body, " ")
        if is_whole:
            self.text = body
        elif self.is_library:
            self.text = f'ADSAFE.lib("m", function (lib) {{\n{body}\n}});\n'
        else:
            script = f'ADSAFE.go("A_", function (dom, lib) {{{script}}});'
            self.text = f'<div id="A_">{markup}<script>{script}</script></div>'

    def files(self):
        """The files of the example, by name."""
        if self.is_library:
            return {"m.js": self.text}
        page = {"version": 1, "page": [{"widget": "A_", "file": "a.html"}], "libs": ["m.js"]}
        return {"m.json": json.dumps(page), "a.html": self.text, "m.js": 'ADSAFE.lib("m", function (lib) { });'}

    def words(self):
        """The words of the command line."""
        return ["check-lib", "m.js"] if self.is_library else ["check", "m.json"]

    def wanted(self):
        """The status and what of the line is wanted; the place where what is told stands once."""
        if self.told is None:
            return 0, [{"accepted": True}]
        line, before = {"refused": self.rule}, self.text.partition(self.told)[0]
        if self.text.count(self.told) == 1:
            line["at"] = [before.count("\n") + 1, len(before.rpartition("\n")[2].encode()) + 1]
        return 1, [line]

    def faults(self, status, out):
        """What differs between the line and what is said of it."""
        line = json.loads(out)
        if self.told is None:
            return [] if line.get("accepted") else [f"is refused: {out.strip()}"]
        if line.get("refused") != self.rule:
            return [f"said {self.rule}: {out.strip()}"]
        row, column = line["at"]
        found = "\n".join(self.text.split("\n")[row - 1:]).encode()[column - 1:].decode()
        return [] if found.startswith(self.told) else [f"said at {self.told!r}, is at {found!r}"]


def code(cell):
    """The first code in a cell."""
    found = CODE.search(cell)
    return found[1] or found[2]


def of_row(at, row):
    """The examples of a row of a table of RULES.md: what is written, and what to write."""
    rule, written, told, write = [cell.strip() for cell in row.strip("|").split(" | ")]
    found = [Judged(at, code(written), rule, code(told))]
    if write.startswith("`"):
        found.append(Judged(at, code(write), rule, None))
    return found


def of_list(page):
    """The examples of rules.tsv."""
    with open(page, encoding="utf-8") as file:
        rows = [line.rstrip("\n").split("\t") for line in file]
    return [Judged(f"{os.path.relpath(page)}:{number}", row[-1], row[0], None, True)
            for number, row in enumerate(rows[1:], 2)]


def of_block(at, markup, text):
    """The example of a block ```js."""
    example = Example(at, markup, text)
    for line in text.splitlines():
        mark = MARK.search(line)
        what, said = (mark[1], mark[2] or "") if mark else ("", "")
        if what == "logs":
            example.log.append(said)
        elif what == "notes":
            example.notes.append(said)
        elif what == "stops":
            example.state = said
        elif what == "spends":
            example.spent = int(said)
    return example


def parted(text):
    """Statements and the expression behind them, which begins behind the last `; ` outside of braces."""
    begins, deep = 0, 0
    for at, char in enumerate(text):
        deep += (char == "{") - (char == "}")
        if deep == 0 and text.startswith("; ", at):
            begins = at + 2
    return text[:begins], text[begins:]


def of_short(at, markup, text, what, comes):
    """The example of an expression in backticks."""
    text, comes = text.replace("\\|", "|"), comes.replace("\\|", "|")
    before, expression = parted(text)
    body = f"    ADSAFE.log(show({expression}));\n"
    if what == "throws":
        body = f"    try {{\n    {body}    }} catch (fault) {{\n        ADSAFE.log(fault.message);\n    }}\n"
    example = Example(at, markup, f"{SHOW}    {before}\n{body}")
    if what == "stops":
        example.state = comes
    else:
        example.log = [FAULTS[comes] if what == "throws" else comes]
    return example


def examples_of(page):
    """The examples of a page, in order."""
    if page.endswith(".tsv"):
        return of_list(page)
    with open(page, encoding="utf-8") as file:
        lines = file.read().splitlines()
    found, markup, libs, kind, block, in_table = [], "<p>hi</p>", [], None, [], False
    for number, line in enumerate(lines, 1):
        at = f"{os.path.relpath(page)}:{number}"
        if kind is None and line.startswith("```"):
            kind, block = line[3:].strip(), []
        elif kind is None and re.match(r"\| [AM]\d\d \| .* \| .* \| ", line) and in_table:
            found += of_row(at, line)
        elif kind is None:
            in_table = line.startswith("| Rule | Written |") or (in_table and line.startswith("|"))
            found += [of_short(at, markup, *it) for it in SHORT.findall(line)]
        elif line != "```":
            block.append(line)
        else:
            text = "\n".join(block) + "\n"
            if kind == "html markup":
                markup = "\n" + text
            elif kind == "js lib":
                libs.append(text)
            elif kind == "js":
                found.append(of_block(at, markup, text))
                found[-1].libs, libs = libs, []
            elif kind == "json items":
                found[-1].items = [{"to": "API_", **it} if "event" in it else it for it in json.loads(text)]
            elif kind == "html page":
                found[-1].page = text
            kind = None
    return found


def run(program, example):
    """The status and the output of the program on an example."""
    with tempfile.TemporaryDirectory() as folder:
        for name, text in example.files().items():
            with open(f"{folder}/{name}", "w", encoding="utf-8") as file:
                file.write(text)
        ended = subprocess.run([program, *example.words()], cwd=folder, stdout=subprocess.PIPE)
        return ended.returncode, ended.stdout.decode()


def program_of(word):
    """The program that a word of the command line means, by its path."""
    script = os.path.abspath(f"{HERE}/../adhost")
    if word != "--try":
        return os.path.abspath(word) if word else script
    subprocess.run([script, "--try", "check-lib", f"{HERE}/../examples/gives-back.js"], check=True)
    return glob.glob(os.path.abspath(f"{HERE}/../crates/adhost/out/unproved-*"))[0]


def rows_of(pages):
    """The examples as cases for the gate."""
    rows = []
    for page in pages:
        for number, example in enumerate(examples_of(page), 1):
            status, lines = example.wanted()
            name = f"{os.path.basename(page)} {number}"
            case = {"name": name, "words": example.words(), "files": example.files(), "status": status, "lines": lines}
            rows.append(json.dumps(case, separators=(",", ":")) + "\n")
    return "".join(rows)


def write_rows(pages):
    """Writes the cases, and gives the status."""
    file = os.path.abspath(f"{HERE}/../crates/run_table/data/examples.jsonl")
    new, old = rows_of(pages), open(file, encoding="utf-8").read() if os.path.exists(file) else ""
    with open(file, "w", encoding="utf-8") as out:
        out.write(new)
    print(f"{new.count(chr(10))} rows, {'as they stood' if new == old else 'not as they stood: the file is new'}")
    return 0 if new == old else 1


def main(program, pages):
    """Runs all examples, tells those that differ, and gives the status."""
    examples = [it for page in pages for it in examples_of(page)]
    bad = 0
    for example in examples:
        faults = example.faults(*run(program, example))
        bad += bool(faults)
        for fault in faults:
            print(f"{example.at}: {fault}\n{example.body}")
    print(f"{len(examples)} examples, {bad} of them not as their page says")
    return 1 if bad or not examples else 0


if __name__ == "__main__":
    WORDS = sys.argv[1:] or [""]
    PAGES = WORDS[1:] or [f"{HERE}/{name}" for name in ("API.md", "PITFALLS.md", "RULES.md", "rules.tsv")]
    sys.exit(write_rows(PAGES) if WORDS[0] == "--rows" else main(program_of(WORDS[0]), PAGES))
