#!/bin/sh
# Makes docs/gadgets.png, the page that the six gadgets leave after their trace, and docs/market.png,
# the page of the market without its swaps and with them. The pages are the texts in the last lines of
# the stored reports, in a headless browser, with the style sheet docs/gadgets.css, which is no part of
# these texts. Needs chromium, jq and pngquant.
set -e
cd "$(dirname -- "$0")"
work=$(mktemp -d)
trap 'rm -rf "$work"' EXIT

# The page of a stored report ($1) as an HTML file ($2).
page() {
    {
        printf '<!doctype html>\n<meta charset="utf-8">\n<style>\n'
        cat gadgets.css
        printf '</style>\n'
        tail -n 1 "../examples/$1" | jq -r .page
    } >"$work/$2"
}

# An HTML file ($1) as a picture ($2) of a size ($3).
picture() {
    chromium --headless --no-sandbox --disable-gpu --hide-scrollbars --window-size="$3" \
        --screenshot="$work/page.png" "file://$work/$1" 2>"$work/log" || { cat "$work/log" >&2; exit 1; }
    pngquant --force --output "$2" 64 "$work/page.png"
}

page gadgets/replay.jsonl page.html
picture page.html gadgets.png 784,716

page market/replay.jsonl before.html
page market/replay-swap.jsonl after.html
printf '<!doctype html>\n<body style="margin: 0; display: flex; zoom: 0.7">' >"$work/market.html"
for part in before after; do
    printf '<iframe src="%s.html" style="border: 0; width: 784px; height: 560px"></iframe>' $part >>"$work/market.html"
done
picture market.html market.png 1098,392
