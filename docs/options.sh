#!/bin/sh
# Tests the options of the script `adhost` at the top of the repository, over the gadgets. It needs
# jq, and builds the program without its proof where `adhost --try` has not kept it. Status 0 where
# each test holds; one that does not is named.
top=$(cd "$(dirname -- "$0")/.." && pwd)
cd "$top/examples/gadgets" || exit 1
work=$(mktemp -d)
trap 'rm -rf "$work"' EXIT
failed=0

# Says a test's name where its test does not hold.
holds() {
    name=$1
    shift
    "$@" || { echo "does not hold: $name"; failed=1; }
}

# Runs adhost with a status that is wanted; the output is left in $work/out and $work/err.
ends() {
    wanted=$1
    shift
    "$top/adhost" "$@" >"$work/out" 2>"$work/err"
    [ $? -eq "$wanted" ]
}

holds "--help" ends 0 --help
holds "--help tells each form" [ "$(grep -c '^  [a-z-]* [A-Z]' "$work/out")" -eq 8 ]
holds "--help tells each option" [ "$(grep -c '^  --' "$work/out")" -eq 5 ]
holds "no words" ends 2
holds "no words write nothing" [ ! -s "$work/out" ]
holds "an option that is none" ends 2 --no
holds "--version" ends 0 --version
holds "--version tells the commit and the kit" grep -q '^adhost [0-9a-z].*, on rattle-kit-[0-9]*[a-z]$' "$work/out"

holds "--try" ends 0 --try replay m.json t.json 50
holds "--try writes what the proved program writes" cmp -s "$work/out" replay.jsonl
holds "--try says that nothing is proved" [ "$(tail -n 1 "$work/err")" = \
    "adhost: this program was built without its proof: nothing of this run is proved" ]
holds "--try with a file that is missing" ends 6 --try check none.json
holds "its status is told" grep -q "^adhost: status 6: " "$work/err"
holds "--try beyond the limit on the size of files" eval "(ulimit -f 0; ends 7 --try replay m.json t.json 50)"
holds "--try of a slot that is refused" ends 1 --try check-lib ../returns-this.js
holds "its line" [ "$(cat "$work/out")" = '{"file":"../returns-this.js","refused":"A04","at":[2,31]}' ]

# Of each file that is refused, and of its line by check-lib or check: the same place and rule, the
# words of docs/rules.tsv, and the mark under the place of a line that is as it stands in the file.
holds "--explain" ends 1 --try --explain ../returns-this.js
cat >"$work/told" <<'END'
../returns-this.js:2:31: A04: this stands
  return function () { return this; };
                              ^
instead: hand the object over
END
holds "--explain tells place, line and rule" cmp -s "$work/out" "$work/told"
cd "$top/examples/refused" || exit 1
for file in *.js *.json; do
    case $file in
        *.js) form=check-lib ;;
        *.json) form=check ;;
    esac
    holds "$form of $file" ends 1 --try $form "$file"
    head=$(jq -r 'select(.refused) | "\(.file):\(.at[0]):\(.at[1]): \(.refused): "' "$work/out")
    holds "--explain of $file" ends 1 --try --explain "$file"
    words=$(awk -F'\t' -v rule="${file%.*}" '$1 == rule { print $2; print "instead: " $5 }' ../../docs/rules.tsv)
    holds "its rule and words of $file" [ "$(sed -n '1p;4p' "$work/out")" = "$head$words" ]
done
cd "$top/examples/gadgets" || exit 1
holds "--explain of a page that breaks no rule" ends 0 --try --explain m.json t.json
holds "it says so" [ "$(cat "$work/out")" = "no rule is broken" ]
holds "--explain of a missing file" ends 6 --try --explain none.json
holds "it names the file" grep -q "^none.json: there is no such file" "$work/out"
holds "--explain of a trace in the manifest's place" ends 3 --try --explain t.json
holds "it tells what is wanted" grep -q '^wanted: {"version"' "$work/out"
holds "--explain of a manifest in the trace's place" ends 4 --try --explain m.json m.json
holds "--explain of no form" ends 2 --try --explain a b c

holds "--html" ends 0 --try --html replay m.json t.json 50
{ echo '<!doctype html><meta charset="utf-8">'; tail -n 1 replay.jsonl | jq -r .page; } >"$work/page"
holds "--html writes the page alone" cmp -s "$work/out" "$work/page"
holds "--html before --try" ends 0 --html --try render m-calc.json
holds "--html of another form" ends 2 --html --try check m.json
holds "--html of a manifest that is missing" ends 6 --try --html render none.json
holds "it writes nothing" [ ! -s "$work/out" ]

holds "--live" [ "$(echo '{"report":true}' | "$top/adhost" --try --live m.json 50 2>"$work/err" | tail -n 7)" = \
    "$("$top/adhost" --try render m.json 2>"$work/err")" ]
holds "--live of a manifest that is missing" ends 6 --try --live none.json 50
holds "--live of no form" ends 2 --try --live m.json

# A page with each of the characters that stand behind a backslash in a report.
cat >"$work/m.json" <<'END'
{"version": 1, "page": [{"widget": "A_", "file": "a.html"}]}
END
cat >"$work/a.html" <<'END'
<div id="A_"><p id="A_p"></p><script>ADSAFE.go("A_", function (dom, lib) {
    dom.q("#A_p").value("\\ \\\\ \" \b\t\n\f\r\u0001\u001f\u0010 \u00e9 <\/p> n\\n\\");
});</script></div>
END
cd "$work" || exit 1
holds "a page of escapes" ends 0 --try render m.json
{ echo '<!doctype html><meta charset="utf-8">'; tail -n 1 out | jq -r .page; } >page
holds "--html of it" ends 0 --try --html render m.json
holds "it writes each as it is" cmp -s out page

[ "$failed" -eq 0 ] && echo "all options hold"
exit "$failed"
