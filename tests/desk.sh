#!/usr/bin/env bash
# Tests what ./judge adds to the program's lines: --explain, --widths, --page, for both questions; and the help of every script.
#
#   tests/desk.sh
#
# tests/page.sh looks at pages in a browser besides. The last line is 'N passed, 0 failed'.

# shellcheck source=tests/common.sh
. "$(dirname "$0")/common.sh" || exit 1
judge=$root/judge
"$judge" <<<'states 1 initial 0' >/dev/null || exit 1
"$judge" --order <<<'states 1 initial 0' >/dev/null || exit 1

# run ARGUMENT...: calls the script on standard input; its output is in out and err, its status in $status.
run() {
    timeout 300 "$judge" "$@" >out 2>err
    status=$?
}

# says PATTERN...: the last run's output has each of these.
says() {
    local pattern
    for pattern in "$@"; do
        grep -qe "$pattern" out || { echo "not said: $pattern"; return 1; }
    done
}

# ---- In words ----

for name in source-trace download-wide split touching map-kept; do
    run --explain "$root/examples/$name.table"
    cmp -s out "$root/tests/desk/$name.out" && [ ! -s err ]
    verdict "explained as stored: $name" $?
    run "$root/examples/$name.table"
    head -n "$(wc -l <out)" "$root/tests/desk/$name.out" | cmp -s - out
    verdict "explained: the program's lines come first: $name" $?
done
# What the README shows is what is printed; .. stands for lines that it leaves out.
sed -n '/^    \.\/judge --explain/,/^Write your own/s/^    //p' "$root/README.md" | sed '1d; /^ *$/d; /^ *\.\.$/d' >shown
[ "$(wc -l <shown)" -ge 12 ] && ! grep -vxFf "$root/tests/desk/download-wide.out" shown
verdict 'what the README shows' $?
run "$root/examples/download-wide.bin" --explain
cmp -s out "$root/tests/desk/download-wide-file.out" && [ "$status" -eq 1 ]
verdict 'explained as stored: a table file has no lines and no names' $?
run --explain - <"$root/examples/split.table"
cmp -s out "$root/tests/desk/split.out" && [ "$status" -eq 1 ]
verdict 'explained: standard input' $?

run --explain <"$root/examples/inputs-a-b.table"
m=$(sed -n '1s/turning 1 //p' out)
says "step $m  transition 2, line 18" "transition 1, line 17: (1,2\], $((m - 2)) times" \
    "U < D <= V, that is $((m - 1)) < 239 <= $((2 * m - 2))" "\.\.$((m - 2))\.\..*|$m\*" "($m)\*.*(1)\*" "$((m - 2)) of $m steps are not drawn"
verdict 'explained: a long witness is shortened with a count' $?
awk 'length > 130 { bad = 1 } END { exit bad }' out
verdict 'explained: no line is too long' $?

# Equal due times: D = V. The earlier step comes first, and both stand in one column.
run --explain <<<'states 3 initial 0
0 -> 1 input 0 output 1 (1,2] delay 15
1 -> 2 input 0 output 2 (3,5] delay 10'
says 'that is 3 < 5 <= 5' 'U is at least 5 (now 3), or if V is below 5 (now 5)' '(1)\*(2)\*'
verdict 'explained: equal due times' $?

run --explain <<<'states 4 initial 0
0 -> 1 input 0 output 1 (1,2] delay 3

2 -> 1 input 0 output 1 (1,2] delay 3
3 -> 3 input 0 output 1 (1,2] delay 3'
[ "$status" -eq 0 ] && says '^strict$' '3 transitions, 2 of 4 states can be reached' "can't be reached, and were not judged" \
    'transition 1, line 4:  2 -> 1' 'transition 2, line 5:  3 -> 3' && ! grep -q 'transition 0' out
verdict 'explained: strict, and what is not reached' $?
# Like letters: a letter with two names, a table file, which are told apart by their numbers; and none that change places.
two_names='output old 7
output new 7
states 3 initial 0
0 -> 1 input 0 output old (1,2] delay 15
1 -> 2 input 1 output new (3,5] delay 10'
run --explain <<<"$two_names"
[ "$status" -eq 0 ] && says '^strict$' 'steps 1 and 2 of one trace, both with output 7, by its names old and new:$' 'step 1  transition 0, line 4' \
    'that is 3 < 5 <= 5: these two come in either order' && ! grep -qi '^turning' out
verdict 'explained: strict, though like letters change places' $?
run --explain "$root/examples/map-kept.bin"
[ "$status" -eq 0 ] && says '^strict$' 'steps 2 and 3 of one trace, both with output 13:$' 'step 3  transition 4:  2 -> 0'
verdict 'explained: like letters of a table file' $?
sed 's/delay 15/delay 16/' <<<"$two_names" | run --explain
[ "$status" -eq 0 ] && says '^strict$' '^Responses with like output letters come in one order too\.$'
verdict 'explained: like letters that are always reversed' $?
sed '2s/7/8/' <<<"$two_names" | run --explain
[ "$status" -eq 1 ] && says '^turning 1 2$' 'step 2 responds first,$' 'output new; with 5 ticks or more step 1 does, output old' && ! grep -q 'ike' out
verdict 'explained: the same with two letters' $?
full_table() {
    echo 'states 2 initial 0'
    for letter in $(seq 0 254); do echo "0 -> 0 input $letter output 0 (1,2] delay 3"; done
    echo "0 -> 1 input 255 output 0 (1,2] delay 1"
}
full_table | run --explain
[ "$status" -eq 0 ] && says '^strict$' 'steps 1 and 2 of one trace, both with output 0:$' 'step 2  transition 255, line 257'
verdict 'explained: as many letters as transitions' $?
bytes 0600 0100 0400 0000 0200 | run --explain
[ "$status" -eq 2 ] && says '^refused 1 at 8$' '^standard input: at byte 8: fewer than four bytes left' '^The rule: A table file is'
verdict 'explained: refused' $?
run --explain <<<'states 2 initial 2'
[ "$status" -eq 2 ] && says '^refused 4 at 0$' '^standard input:1: initial state 2: the states are 0 to 1' '^The rule: 1 to 32 states'
verdict 'explained: a text is refused' $?
run --explain <<<'states 2 initial nowhere'
[ "$status" -eq 2 ] && [ ! -s out ] && grep -q '^standard input:1: ' err
verdict 'explained: a text without a file' $?

# The same for --order.
for name in flow-change download-narrow map-kept; do
    run --order --explain "$root/examples/$name.table"
    cmp -s out "$root/tests/desk/$name-order.out" && [ ! -s err ]
    verdict "order, explained as stored: $name" $?
done
run --explain --order "$root/examples/source-trace.bin"
[ "$status" -eq 1 ] && says '^overtaken 1 3$' 'step 3  transition 2:  2 -> 3' 'U < D, that is 25 < 30: with less than 30 ticks' 'So this pair turns' \
    'step 3 has its request at 45+ and its response at 55+ ticks' '(3)\*  (1)\*' && ! grep -q '^  late \|, line' out
verdict 'order, explained: a table file, and a pair that turns' $?
run --order --explain <"$root/examples/inputs-a-b.table"
says '^overtaken 1 2$' 'step 2  transition 2, line 18' 'U < D, that is 1 < 239' 'D > V, that is 239 > 2' 'So this pair is always reversed'
verdict 'order, explained: the walk of least u, where the judge shows a long one' $?
# The first step of a ring of 32 is overtaken by the last alone.
{
    echo 'states 32 initial 0'
    for j in {0..30}; do
        echo "$j -> $((j + 1)) input 0 output 0 (1,2] delay $((40 - j))"
    done
    echo '31 -> 0 input 0 output 0 (1,2] delay 8'
} >ring
run --order --explain <ring
says '^overtaken 1 32$' '^  \.\. 19 more \.\.$' 'U < D, that is 31 < 32' '\.\.28\.\.  |31  |32\*' '28 of 32 steps are not drawn' &&
    awk 'length > 130 { bad = 1 } END { exit bad }' out
verdict 'order, explained: a long witness is shortened with a count' $?
run --order --explain <<<"$two_names"
[ "$status" -eq 1 ] && says '^overtaken 1 2$' 'So this pair comes in either order\.$' 'Both have output 7, by its names old and new\. Like letters' &&
    ! grep -q 'pair turns' out
verdict 'order, explained: like letters count' $?
sed 's/delay 15/delay 16/' <<<"$two_names" | run --order --explain
[ "$status" -eq 1 ] && says '^overtaken 1 2$' 'always reversed, and does not turn\.$' 'in the order of the requests they count\.$'
verdict 'order, explained: like letters that are always reversed' $?
run --order --explain <<<'states 3 initial 0
0 -> 1 input 0 output 1 (1,2] delay 13
1 -> 2 input 0 output 2 (3,5] delay 10'
[ "$status" -eq 0 ] && says '^in order$' '2 transitions, 3 of 3 states can be reached'
verdict 'order, explained: D = U' $?
run --order --explain <<<'states 2 initial 0
1 -> 1 input 0 output 1 (1,2] delay 9
1 -> 0 input 1 output 1 (1,2] delay 1'
[ "$status" -eq 0 ] && says '^in order$' "can't be reached, and were not judged" 'transition 0, line 2' 'transition 1, line 3'
verdict 'order, explained: what is not reached' $?
bytes 0600 0100 0400 0000 0200 | run --order --explain
[ "$status" -eq 2 ] && says '^refused 1 at 8$' '^The rule: A table file is'
verdict 'order, explained: refused' $?

# Names in any locale, and a file's name that is no UTF-8.
printf 'state größe 0\nstates 1 initial 0\n\n0 -> größe input 0 output 送 (1,2] delay 3\n' >bad.table
LC_ALL=C timeout 60 "$judge" bad.table >out 2>err
[ $? -eq 2 ] && grep -q '^bad\.table:4: ' err && ! grep -q Traceback err
verdict 'a text with names, in the plainest locale' $?
head -c 20 "$root/examples/split.bin" >$'\xff.bin'
run --explain --page page.html $'\xff.bin'
[ "$status" -eq 2 ] && says '^refused 1 at 8$' '^The rule: ' && ! grep -q Traceback err && [ -s page.html ]
verdict 'a name that is no UTF-8' $?
rm page.html

# Every picture tells the truth: for random turning tables the responses stand in their order, in both timings and in the early one alone.
cat >pictures.py <<'PYTHON'
import random
import sys

root, most = sys.argv[1], int(sys.argv[2])
sys.dont_write_bytecode = True
sys.path[:0] = [root + "/tools", root + "/tests"]
import independent
from desk import answers, picture, tables
from desk.timing import Overtaking, Turn

done = wrong = 0
for seed in range(100000):
    rng = random.Random(f"pictures {seed}")
    shape = rng.choice((independent.shape_tiny, independent.shape_pair, independent.shape_chain, independent.table_for_trace))
    rows = shape(rng)
    rows = [(rows[0].rows[i]) for i in rows[1]] if isinstance(rows, tuple) else rows.rows
    pair = independent.turning_pair(rows) if rows and independent.joined(rows) else None
    if pair is None:
        continue
    done += 1
    k, m = pair
    rows = rows[:m]
    stamps = [independent.stamps_of(word) for word in (independent.late_word(rows), independent.early_word(rows, k, m))]
    table = tables.Table(32, 0, [tables.Transition(*row) for row in rows])

    def picture_of(made, word, columns):
        raw = f"{word} {k} {m}\n" + "".join(f"{j + 1} {j} {' '.join(map(str, row))}\n" for j, row in enumerate(zip(*columns)))
        return picture.drawn(made(answers.understood(raw.encode()), table))

    both, early = picture_of(Turn, "turning", stamps), picture_of(Overtaking, "overtaken", stamps[1:])
    for lines, at, word in ((both, 1, stamps[0]), (both, 3, stamps[1]), (early, 1, stamps[1])):
        gaps = [b - a for a, b in zip([0] + word, word)]
        order = [step for _, step in independent.responses(gaps, rows, 256)]
        drawn = [int(label.strip("()* ")) for label in lines[at + 1].replace("responses", "").replace(")", ") ").split() if "(" in label]
        asked = [int(label.strip("|* ")) for label in lines[at].split() if label.startswith("|")]
        starred = lines[at].count("*") == 2 and lines[at + 1].count("*") == 2
        if drawn != [step for step in order if step in drawn] or asked != sorted(drawn) or not {k, m} <= set(drawn) or not starred:
            wrong += 1
    if max(map(len, both[:5] + early[:3])) > picture.WIDE:
        wrong += 1
    if done == most:
        break
print(done, wrong)
PYTHON
[ "$(python3 pictures.py "$root" 400)" = '400 0' ]
verdict 'pictures of 400 random turning traces' $?

# ---- Widths ----

run --widths "$root/examples/download-narrow.table"
printf '%s\n' '0 3 4095' '1 1 4095' '2 1 4095' '3 1 20' '4 20 4095' '5 55 4095' '6 55 4095' '7 3 4095' | cmp -s - out && [ "$status" -eq 0 ]
verdict 'widths: lines of three numbers' $?
run --widths --explain "$root/examples/download-narrow.table"
cmp -s out "$root/tests/desk/download-narrow-widths.out" && [ "$status" -eq 0 ]
verdict 'widths: explained as stored' $?
run --widths "$root/examples/map-kept.table"
printf '%s\n' '0 56 4095' '1 1 4095' '2 1 4095' '3 1 4095' '4 1 4095' '5 55 4095' | cmp -s - out && [ "$status" -eq 0 ]
verdict 'widths: like letters stop no end' $?
run --widths "$root/examples/source-trace.table"
[ "$status" -eq 1 ] && head -n 1 out | grep -qx 'turning 1 3' && grep -q 'must be strict first' err
verdict 'widths: a table that turns' $?
run --widths "$root/examples/split.bin"
[ "$status" -eq 1 ] && head -n 1 out | grep -qx 'split 1 2' && grep -q 'must be strict first' err
verdict 'widths: a table that splits' $?
run --widths <<<'states 0 initial 0'
[ "$status" -eq 2 ] && [ "$(cat out)" = 'refused 4 at 0' ] && ! grep -q 'must be strict' err
verdict 'widths: a table that is refused' $?
run --widths <<<'states 3 initial 0
1 -> 2 input 0 output 0 (5,6] delay 1
0 -> 2 input 0 output 0 (5,6] delay 1'
[ "$status" -eq 0 ] && [ "$(cat out)" = '1 1 4095' ]
verdict 'widths: reachable transitions alone' $?
run --widths <<<'states 3 initial 0'
[ "$status" -eq 0 ] && [ ! -s out ] && [ ! -s err ]
verdict 'widths: no transitions' $?
python3 "$root/tests/widths.py" "$judge" >said
sed '$d' said
passed=$((passed + $(sed -n 's/^\([0-9]*\) passed, .*/\1/p' said)))
grep -q ' passed, 0 failed$' said
verdict 'widths: against trying every value' $?

# ---- The page ----

# well_formed: every element of the page is closed, and nothing is fetched from elsewhere.
well_formed() {
    python3 - "$1" <<'PYTHON'
import html.parser
import sys

class Check(html.parser.HTMLParser):
    open, wrong, void = [], [], {"meta"}
    def handle_starttag(self, tag, attributes):
        names = dict(attributes)
        self.wrong += [name for name in names if name in ("src", "href") or name.startswith("on")]
        self.wrong += [tag] if tag in ("script", "link", "img", "iframe") else []
        if tag not in self.void:
            self.open.append(tag)
    def handle_endtag(self, tag):
        self.wrong += [] if self.open and self.open.pop() == tag else [tag]

check = Check()
with open(sys.argv[1], encoding="utf-8") as file:
    text = file.read()
check.feed(text)
sys.exit(bool(check.wrong or check.open) or "url(" in text or "://" in text)
PYTHON
}
run --page page.html "$root/examples/download-wide.table"
[ "$status" -eq 1 ] && [ "$(wc -l <out)" -eq 4 ] && [ ! -s err ] && well_formed page.html
verdict 'page: turning' $?
[ "$(grep -c '<svg' page.html)" -eq 2 ] && grep -q 'late timing' page.html && grep -q 'early timing' page.html &&
    grep -q 'link_lost → download_failed' page.html && grep -q '<tr class="pair"><td class="number">4<' page.html &&
    grep -q '<tr class="trace"><td class="number">0<' page.html && grep -q 'U &lt; D &lt;= V, that is 2 &lt; 55 &lt;= 90' page.html
verdict 'page: both timings, the pair and the trace are there' $?
run --page page.html "$root/examples/split.table"
[ "$status" -eq 1 ] && well_formed page.html && [ "$(grep -c '<svg' page.html)" -eq 1 ] && [ "$(grep -c '<tr class="pair">' page.html)" -eq 2 ]
verdict 'page: split, over the page before' $?
run --widths --page page.html "$root/examples/download-narrow.table"
[ "$status" -eq 0 ] && [ "$(wc -l <out)" -eq 8 ] && well_formed page.html && ! grep -q '<svg' page.html && grep -q 'greatest v' page.html &&
    grep -q 'at 54 turning' page.html
verdict 'page: strict, with widths' $?
run --page page.html "$root/examples/map-kept.table"
[ "$status" -eq 0 ] && [ "$(cat out)" = strict ] && well_formed page.html && ! grep -q '<svg' page.html && grep -q '<h1>Strict: .*told apart' page.html &&
    grep -q 'both with output map_kept' page.html
verdict 'page: strict, though like letters change places' $?
run --page page.html <<<'states 2 initial 2'
[ "$status" -eq 2 ] && well_formed page.html && grep -q 'the states are 0 to 1' page.html
verdict 'page: refused' $?
run --page page.html <<<'states 2 initial <b>'
[ "$status" -eq 2 ] && well_formed page.html && grep -q 'standard input:1: ' page.html
verdict 'page: a text without a file, its words being no elements' $?
run --order --page page.html "$root/examples/flow-change.table"
[ "$status" -eq 1 ] && well_formed page.html && [ "$(grep -c '<svg' page.html)" -eq 1 ] && [ "$(grep -c '<tr class="pair">' page.html)" -eq 2 ] &&
    grep -q 'early timing: responses in the order of steps 2, 1' page.html && grep -q '<title>overtaken 1 2: ' page.html && ! grep -q alike page.html
verdict 'page: overtaken' $?
run --order --page page.html "$root/examples/split.table"
[ "$status" -eq 0 ] && [ "$(cat out)" = 'in order' ] && well_formed page.html && ! grep -q '<svg' page.html && grep -q '<h1>In order: ' page.html
verdict 'page: in order' $?
run --order --widths --page other.html "$root/examples/flow-change.table"
[ "$status" -eq 3 ] && [ ! -s out ] && [ ! -e other.html ] && grep -q 'does not go with --order' err
verdict 'page: a wrong call writes none' $?
cp "$root/examples/split.table" mine.table
run --page mine.table mine.table
[ "$status" -eq 3 ] && cmp -s mine.table "$root/examples/split.table" && grep -q 'is read from' err
verdict 'page: never over what is judged' $?
run --page mine.table "$root/examples/split.bin"
[ "$status" -eq 3 ] && cmp -s mine.table "$root/examples/split.table" && grep -q 'exists' err
verdict 'page: never over a file that is no page' $?
run --page nowhere/page.html mine.table
[ "$status" -eq 3 ] && grep -q 'nowhere/page\.html' err
verdict 'page: a folder that is not there' $?

# ---- The help of every script ----

(cd "$root" && find judge test .ci bench tests tools -type f -perm -u+x) | sort >scripts
[ "$(wc -l <scripts)" -ge 11 ]
verdict 'the scripts were found' $?
while read -r script; do
    timeout 60 "$root/$script" --help >out 2>err </dev/null
    [ $? -eq 0 ] && [ "$(wc -l <out)" -ge 3 ] && [ ! -s err ]
    verdict "help: $script" $?
done <scripts

finish
