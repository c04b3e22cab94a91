#!/usr/bin/env bash
# Looks at pages of ./judge --page in headless Chromium: no script error, the pictures are there, no label lies on another
# or outside its picture. Debian's chromium is installed if it is missing and that is allowed. Not part of the gate.
#
#   tests/page.sh [FOLDER]     FOLDER: where pages and screenshots are kept to be looked at
#
# The last line is 'N passed, 0 failed'.

keep=${1:+$(readlink -f "$1")}
# shellcheck source=tests/common.sh
. "$(dirname "$0")/common.sh" || exit 1
if ! command -v chromium >/dev/null && [ "$(id -u)" -eq 0 ] && command -v apt-get >/dev/null; then
    echo "installing Debian's chromium" >&2
    { apt-get update -qq && DEBIAN_FRONTEND=noninteractive apt-get install -y -qq chromium; } >installed 2>&1 || tail -n 3 installed >&2
fi
command -v chromium >/dev/null || { echo "a browser is needed here: install Debian's chromium" >&2; exit 2; }
[ -z "$keep" ] || mkdir -p "$keep" || exit 2

browser() {
    timeout 120 chromium --headless --no-sandbox --disable-gpu --hide-scrollbars --enable-logging=stderr --user-data-dir="$work/profile" "$@"
}

# Says which labels of a picture meet, which lie outside it, how many there are, and whether the page is wider than its window.
cat >check.js <<'SCRIPT'
<script>
const said = [];
for (const [place, picture] of document.querySelectorAll("svg").entries()) {
    const frame = picture.viewBox.baseVal, boxes = [];
    for (const label of picture.querySelectorAll("text"))
        boxes.push([label.textContent, label.getBBox()]);
    boxes.forEach(([one, a], i) => {
        if (a.x < 0 || a.y < 0 || a.x + a.width > frame.width || a.y + a.height > frame.height)
            said.push("outside picture " + place + ": " + one);
        for (const [two, b] of boxes.slice(i + 1))
            if (a.x < b.x + b.width && b.x < a.x + a.width && a.y + 3 < b.y + b.height - 3 && b.y + 3 < a.y + a.height - 3)
                said.push("picture " + place + ": " + one + " meets " + two);
    });
    said.push("labels " + boxes.length);
}
if (document.documentElement.scrollWidth > innerWidth) said.push("wider than the window");
const list = document.createElement("pre");
list.id = "said";
list.textContent = "SAID " + said.join("; ") + " DIAS";
document.body.append(list);
</script>
SCRIPT

# looked NAME PICTURES [OPTION]: the page of the text on standard input has so many pictures, and they are in order.
looked() {
    cat >"$1.table"
    "$root/judge" "${3:---widths}" --page "$1.html" "$1.table" >/dev/null 2>&1
    sed '/<\/body>/e cat check.js' "$1.html" >"$1-checked.html"
    browser --dump-dom "file://$work/$1-checked.html" >dom 2>errors
    tr '\n' ' ' <dom | sed -n 's/.*>SAID \(.*\) DIAS<.*/\1/p' >said
    [ "$(grep -o 'labels [1-9][0-9]*' said | wc -l)" -eq "$2" ]
    verdict "$1: $2 pictures with labels" $?
    ! grep -o '[^;]*\(meets\|outside\|wider\)[^;]*' said && [ -s dom ]
    verdict "$1: no label meets another" $?
    ! grep CONSOLE errors
    verdict "$1: no script error" $?
    browser --window-size=1000,1500 --screenshot="$work/$1.png" "file://$work/$1.html" >/dev/null 2>&1 && [ -s "$1.png" ]
    verdict "$1: a screenshot" $?
    [ -z "$keep" ] || cp "$1.html" "$1.png" "$keep/"
}

for name in source-trace download-wide inputs-a-b; do looked "$name" 2 <"$root/examples/$name.table"; done
looked split 1 <"$root/examples/split.table"
for name in flow-change inputs-a-b; do looked "$name-order" 1 --order <"$root/examples/$name.table"; done
for name in download-narrow map-kept; do looked "$name" 0 <"$root/examples/$name.table"; done
looked refused 0 <<<'states 0 initial 0'

# 269 steps, on two scales.
{
    echo 'states 32 initial 0'
    for s in $(seq 0 29); do echo "$s -> $((s + 1)) input 0 output $s (1,4095] delay 1"; done
    printf '%s\n' '30 -> 31 input 0 output 100 (1,2] delay 240' '31 -> 31 input 0 output 101 (1,2] delay 240' \
        '31 -> 0 input 1 output 102 (1,2] delay 1'
} | looked long 2
looked names 2 <<'TEXT'
input a_name_that_goes_on_and_on_and_does_not_want_to_end_at_all 0
output 送信送信送信送信送信送信送信送信送信送信送信 1
output WWWWWWWWWWWWWWWWWWWWWWWWWWWWWWWWWWWWWWWWWWWWWW 2
states 3 initial 0
0 -> 1 input a_name_that_goes_on_and_on_and_does_not_want_to_end_at_all output 送信送信送信送信送信送信送信送信送信送信送信 (1,4095] delay 240
1 -> 2 input 0 output WWWWWWWWWWWWWWWWWWWWWWWWWWWWWWWWWWWWWWWWWWWWWW (2,4000] delay 5
TEXT
{
    echo 'states 32 initial 0'
    for s in $(seq 0 29); do echo "$s -> $((s + 1)) input 0 output $s (1,4095] delay 1"; done
    printf '%s\n' '30 -> 31 input 0 output 1 (1,4095] delay 240' '30 -> 0 input 0 output 2 (4094,4095] delay 1'
} | looked long-split 1

finish
