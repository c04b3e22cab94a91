#!/usr/bin/env bash
# Tests ./judge and the programs that it builds: what is printed for tables of every
# verdict and order, for texts and for damaged files, input that is long or comes in
# pieces, and what the script does about wrong calls and failed builds. The answers are
# worked out from the rules; where these leave the trace free, the shortest way to
# step k is shown.
#
#   tests/judge.sh
#
# The last line is 'N passed, 0 failed'.

# shellcheck source=tests/common.sh
. "$(dirname "$0")/common.sh" || exit 1
judge=$root/judge
table=$root/tools/table

# The programs are built now, so that later calls have nothing to say on standard error.
"$judge" <<<'states 1 initial 0' >/dev/null || exit 1
"$judge" --order <<<'states 1 initial 0' >/dev/null || exit 1

# The programs themselves, as ./judge runs them.
PYTHONPATH=$root/tools python3 -B -m desk.program | mapfile -t program
PYTHONPATH=$root/tools python3 -B -m desk.program order | mapfile -t order_program
[ "${#program[@]}" -gt 1 ] && [ "${#order_program[@]}" -gt 1 ] || exit 1

# run ARGUMENT...: calls the script on standard input; its output is in out and err, its status in $status.
options=()  # of every call
run() {
    timeout 120 "$judge" "${options[@]}" "$@" >out 2>err
    status=$?
}

# printed NAME LINE...: the last run printed exactly these lines, with the status of their first word; of a refusal
# standard error has the words, else it is empty.
printed() {
    local name=$1 wanted=1
    shift
    case $1 in strict | 'in order') wanted=0 ;; refused*) wanted=2 ;; esac
    printf '%s\n' "$@" | cmp -s - out && [ "$status" -eq "$wanted" ] && { [ "$wanted" -eq 2 ] || [ ! -s err ]; } &&
        { [ "$wanted" -ne 2 ] || [ -s err ]; }
    verdict "$name" $?
}

# answers NAME LINE...: the file on standard input gets this answer.
answers() {
    run
    printed "$@"
}

# judged NAME LINE...: the table whose text is on standard input gets this answer, as a file and as the text.
judged() {
    local name=$1
    shift
    cat >judged.table
    "$table" pack judged.table 2>/dev/null >judged.bin && run judged.bin
    printed "$name" "$@"
    run judged.table
    printed "$name (text)" "$@"
}

# ordered NAME LINE...: the same for the answer to --order.
ordered() {
    local options=(--order)
    judged "order: $@"
}

# trouble PATTERN NAME: the last run printed nothing, had status 3 and said so.
trouble() {
    [ "$status" -eq 3 ] && [ ! -s out ] && grep -q "$1" err && ! grep -q Traceback err
    verdict "$2" $?
}

# ---- The whole case ----

source_file=$root/examples/source-trace.bin
source_lines=('turning 1 3' '1 0 5120 5120' '2 1 10240 8961' '3 2 14080 11522')
head='0600 0100 0400 0000'
row0='1000 0200 0000 0000 0100 0100 0500 1400 2800'
row1='1000 0200 0100 0000 0200 0200 0f00 1400 1e00'
row2='1000 0200 0200 0000 0300 0300 0a00 0f00 0a00'
end='0200 0300'
bytes "$head $row0 $row1 $row2 $end" >source.bin
[ "$(wc -c <source.bin)" -eq 66 ] && cmp -s source.bin "$source_file"
verdict 'whole case: 66 bytes' $?
run source.bin
printed 'whole case: a file' "${source_lines[@]}"
answers 'whole case: standard input' "${source_lines[@]}" <source.bin
cmp -s source.bin "$root/crates/judge/stdin" && printf '%s\n' "${source_lines[@]}" | cmp -s - "$root/crates/judge/stdout"
verdict 'whole case: it is the stored case of the program' $?

# ---- Examples: each prints what its comment says ----

examples=0
for text in "$root"/examples/*.table; do
    name=$(basename "$text" .table)
    examples=$((examples + 1))
    run "${text%.table}.bin"
    mapfile -t lines < <(sed -n 's/^#     //p' "$text")
    word=$(sed -n 's/^# Verdict: \([a-z]*\).*/\1/p' "$text")
    if [ "$name" = inputs-a-b ]; then
        # Transition 0, then 1 again and again, then 2; a gap is 512 late and 257 early, the first 512 in both words.
        awk 'NR == 1 { m = $3; bad = !($1 == "turning" && $2 == 1 && 121 <= m && m <= 239 && NF == 3); next }
             { s = NR - 1; t = s == 1 ? 0 : s == m ? 2 : 1 }
             $0 != s " " t " " 512 * s " " 512 + 257 * (s - 1) { bad = 1 }
             END { exit bad || NR != m + 1 }' out && [ "$status" -eq 1 ] && [ ! -s err ]
        verdict "example $name" $?
    elif [ ${#lines[@]} -gt 0 ] && [ "$word" = "${lines[0]%% *}" ]; then
        printed "example $name" "${lines[@]}"
    else
        [ "$word" = strict ]
        verdict "example $name: its comment has the verdict" $?
        printed "example $name" strict
    fi
done
[ "$examples" -ge 8 ]
verdict 'the examples were there' $?

# ---- Strict and turning: U < D <= V ----

judged 'no transitions' strict <<<'states 1 initial 0'
judged 'no transitions, 32 states' strict <<<'states 32 initial 31'
judged 'v = 4095' strict <<<'states 1 initial 0
0 -> 0 input 0 output 0 (1,4095] delay 1'

# first DELAY: two steps in a row, the second with guard (3,5] and delay 10.
first() {
    printf 'states 3 initial 0\n0 -> 1 input 0 output 1 (1,2] delay %d\n1 -> 2 input 0 output 2 (3,5] delay 10\n' "$1"
}
for delay in 8 10 13 16; do
    first "$delay" | judged "D = $((delay - 10)): strict" strict
done
for delay in 14 15; do
    first "$delay" | judged "D = $((delay - 10)): turning" 'turning 1 2' '1 0 512 512' '2 1 1792 1281'
done

# short INITIAL: no trace is as long as the bound of theorem 2.
short() {
    printf 'states 3 initial %d\n0 -> 1 input 0 output 1 (1,2] delay 9\n1 -> 2 input 0 output 2 (3,4] delay 5\n' "$1"
}
short 0 | judged 'a dead end' 'turning 1 2' '1 0 512 512' '2 1 1536 1281'
short 2 | judged 'a turning pair that is not reached' strict
short 1 | judged 'only the second step of the pair is reached' strict

# The turning pair is 1 and 2; step 0 leads there, and the late gap comes before it in both words.
judged 'a way before the pair' 'turning 2 3' '1 2 2560 2560' '2 0 3072 3072' '3 1 4096 3841' <<<'states 4 initial 3
0 -> 1 input 0 output 1 (1,2] delay 9
1 -> 2 input 0 output 2 (3,4] delay 5
3 -> 0 input 0 output 3 (9,10] delay 1'

# ---- Like letters: a pair turns only if its output letters differ ----

# one_letter: the text on standard input with one output letter throughout.
one_letter() {
    sed 's/ output [a-z_0-9]*/ output 7/'
}
for name in source-trace inputs-a-b download-wide; do
    one_letter <"$root/examples/$name.table" | judged "one letter: example $name" strict
done
for delay in 14 15; do
    first "$delay" | one_letter | judged "one letter, D = $((delay - 10)): strict" strict
done
short 0 | one_letter | judged 'one letter, a dead end' strict
kept=$root/examples/map-kept.table
sed 's/link_lost   output map_kept/link_lost   output no_map/' "$kept" |
    judged 'example map-kept with another letter' 'turning 2 3' '1 0 153600 153600' '2 3 179200 179200' '3 4 202240 179713'
sed 's/map_whole   output/link_lost   output/' "$kept" | judged 'like letters, like inputs' strict
sed 's/^output no_map .*/&\noutput still_used 13/; s/map_whole   output map_kept/map_whole   output still_used/' "$kept" |
    judged 'two names of one letter' strict

# in_a_row LETTER LETTER LETTER: every two of three steps change places.
in_a_row() {
    printf 'states 4 initial 0\n0 -> 1 input 0 output %d (1,2] delay 20\n' "$1"
    printf '%s\n' "1 -> 2 input 1 output $2 (3,12] delay 10" "2 -> 3 input 2 output $3 (1,9] delay 5"
}
in_a_row 1 1 1 | judged 'three steps, one letter' strict
in_a_row 1 1 2 | judged 'three steps, the third has another letter' 'turning 1 3' '1 0 512 512' '2 1 3584 1281' '3 2 5888 1538'
in_a_row 1 2 1 | judged 'three steps, the second has another letter' 'turning 1 2' '1 0 512 512' '2 1 3584 1281'
judged 'the lowest transition is that of a pair with other letters' 'turning 1 2' '1 2 512 512' '2 3 1792 1281' <<<'states 5 initial 0
0 -> 1 input 0 output 1 (1,2] delay 14
1 -> 2 input 0 output 1 (3,5] delay 10
0 -> 3 input 1 output 1 (1,2] delay 14
3 -> 4 input 0 output 2 (3,5] delay 10'

# ---- Split ----

one_letter <"$root/examples/split.table" | judged 'like letters excuse no split' 'split 1 2' '1 0 0 2560' '2 1 2 3584'
judged 'touching guards' strict <<<'states 2 initial 0
0 -> 1 input 0 output 1 (1,3] delay 1
0 -> 1 input 0 output 2 (3,5] delay 1'
judged 'overlapping guards' 'split 0 1' '1 0 1 1024' <<<'states 2 initial 0
0 -> 1 input 0 output 1 (1,4] delay 1
0 -> 1 input 0 output 2 (3,5] delay 1'
judged 'the second has the lesser v' 'split 0 1' '1 0 1 1024' <<<'states 2 initial 0
0 -> 1 input 0 output 2 (3,5] delay 1
0 -> 1 input 0 output 1 (1,4] delay 1'
judged 'overlapping guards, other inputs' strict <<<'states 2 initial 0
0 -> 1 input 0 output 1 (1,4] delay 1
0 -> 1 input 1 output 1 (1,4] delay 1'
judged 'a split that is not reached' strict <<<'states 3 initial 0
0 -> 1 input 0 output 0 (1,2] delay 1
2 -> 1 input 0 output 1 (1,4] delay 1
2 -> 1 input 0 output 2 (3,5] delay 1'
judged 'split and turning' 'split 1 2' '1 0 0 512' '2 1 2 1792' <<<'states 3 initial 0
0 -> 1 input 0 output 1 (1,2] delay 14
1 -> 2 input 0 output 2 (3,5] delay 10
1 -> 0 input 0 output 3 (4,6] delay 10'
judged 'least I, then least J' 'split 1 4' '1 3 3 1024' '2 1 4 1536' <<<'states 3 initial 0
2 -> 2 input 0 output 1 (1,4] delay 1
1 -> 2 input 0 output 1 (1,2] delay 1
2 -> 2 input 0 output 2 (4,5] delay 1
0 -> 1 input 0 output 1 (2,4] delay 1
1 -> 1 input 0 output 2 (1,3] delay 1
1 -> 0 input 0 output 3 (1,4] delay 1'

# ---- Order: U < D, whatever V is ----

order_lines=('overtaken 1 3' '1 0 5120' '2 1 8961' '3 2 11522')
run --order source.bin
printed 'order: whole case' "${order_lines[@]}"
run source.bin --order
printed 'order: the option after the file' "${order_lines[@]}"
cmp -s source.bin "$root/crates/order/stdin" && printf '%s\n' "${order_lines[@]}" | cmp -s - "$root/crates/order/stdout"
verdict 'order: the whole case is the stored case of the program' $?
for name in download-narrow split touching; do
    run --order "$root/examples/$name.table"
    printed "order: example $name" 'in order'
done
run --order "$root/examples/download-wide.bin"
printed 'order: example download-wide' 'overtaken 2 3' '1 0 153600' '2 4 179200' '3 5 179713'
for name in flow-change map-kept; do
    run --order "$root/examples/$name.table"
    mapfile -t lines < <(sed -n 's/^#     //p' "$root/examples/$name.table")
    printed "order: a strict example that is overtaken: $name" "${lines[@]}"
done
one_letter <"$root/examples/source-trace.table" | ordered 'like letters count' "${order_lines[@]}"
in_a_row 1 1 2 | ordered 'like letters count first' 'overtaken 1 2' '1 0 512' '2 1 1281'

ordered 'no transitions' 'in order' <<<'states 1 initial 0'
for delay in 8 10 13; do
    first "$delay" | ordered "D = $((delay - 10)): in order" 'in order'
done
for delay in 14 15 16 240; do
    first "$delay" | ordered "D = $((delay - 10)): overtaken" 'overtaken 1 2' '1 0 512' '2 1 1281'
done
first 16 | judged 'D above V: strict all the same' strict
short 2 | ordered 'a pair that is not reached' 'in order'
short 1 | ordered 'the step that is overtaken is not reached' 'in order'
ordered 'split and overtaken' 'overtaken 1 2' '1 0 512' '2 1 1281' <<<'states 3 initial 0
0 -> 1 input 0 output 1 (1,2] delay 14
1 -> 2 input 0 output 2 (3,5] delay 10
1 -> 0 input 0 output 3 (4,6] delay 10'
ordered 'split and in order' 'in order' <<<'states 2 initial 0
0 -> 1 input 0 output 1 (1,4] delay 1
0 -> 1 input 0 output 2 (3,5] delay 1'
# Transition 0 is always overtaken, 1 is the first that turns.
both='states 4 initial 0
0 -> 1 input 0 output 1 (1,2] delay 20
1 -> 2 input 0 output 2 (3,5] delay 10
2 -> 3 input 0 output 3 (1,9] delay 5'
ordered 'the lowest that is overtaken' 'overtaken 1 2' '1 0 512' '2 1 1281' <<<"$both"
judged 'the lowest that turns is another' 'turning 2 3' '1 0 512 512' '2 1 1792 1792' '3 2 4096 2049' <<<"$both"

options=(--order)
answers 'order: empty input' 'refused 1 at 0' </dev/null
head -c 30 source.bin | answers 'order: cut to 30 bytes' 'refused 1 at 26'
bytes "$head $row0 $end $end" | answers 'order: a second end' 'refused 2 at 30'
bytes "$head $row0 $row1 $row0 $end" | answers 'order: a transition again' 'refused 5 at 44'
printf 'states 2 initial 0\n0 -> 1 input 0 output 0 (1,70000] delay 1\n' | answers 'order: a text with a number out of range' 'refused 4 at 8'
grep -q '^standard input:2: refused 4: a number outside its range' err
verdict 'order: a number out of range, its line' $?
run <<<'states 2 initial nowhere'
[ "$status" -eq 2 ] && [ ! -s out ] && grep -q '^standard input:1: ' err
verdict 'order: a text that no file can say' $?
run nowhere.bin
trouble 'nowhere\.bin: there is no such file' 'order: a file that is not there'
run "$work"
trouble 'directory' 'order: a directory'
run <&-
trouble 'standard input is closed' 'order: standard input is closed'
run source.bin source.bin
trouble 'too many words' 'order: two files'
run --widths source.bin
trouble '^--widths: .*does not go with --order' 'order: no widths'
options=()
run --order=yes source.bin
trouble '^--order=yes: there is no such option' 'order: a value that is none'
run --ordered source.bin
trouble '^--ordered: there is no such option' 'order: a misspelt option'
run order source.bin
trouble 'too many words' 'order: without its dashes'

# ---- Refused ----

answers 'empty input' 'refused 1 at 0' </dev/null
bytes 060001 | answers 'three bytes' 'refused 1 at 0'
bytes "$head" | answers 'a head alone' 'refused 1 at 8'
bytes "$head $head $end" | answers 'a second head' 'refused 2 at 8'
bytes "$row0 $end" | answers 'no head' 'refused 2 at 0'
bytes "$head $row0 $end $end" | answers 'a second end' 'refused 2 at 30'
bytes "$head $row0" '1000 0200 0000 0000 0100 0100 0500 0010 2800' "$end" | answers 'v = 4096' 'refused 4 at 26'
bytes "$head $row0 $row1 $row0 $end" | answers 'a transition again' 'refused 5 at 44'
bytes '0600 0100 0400 0400' "$end" | answers 'initial state 4 of 4' 'refused 4 at 0'
for cut in 1 7 8 11 25 26 30 44 62 65; do
    at=$((cut < 8 ? 0 : 8 + (cut - 8) / 18 * 18))
    head -c "$cut" source.bin | answers "cut to $cut bytes" "refused 1 at $at"
done

# ---- Long input ----

# full DELAY: 256 transitions in one state, each with a letter of its own, the last with this delay and the others with 3.
full() {
    echo 'states 2 initial 0'
    for letter in $(seq 0 254); do echo "0 -> 0 input $letter output $letter (1,2] delay 3"; done
    echo "0 -> 1 input 255 output 255 (1,2] delay $1"
}
full 3 | judged 'the longest file: strict' strict
full 1 | judged 'the longest file: its last transition turns' 'turning 1 2' '1 0 512 512' '2 255 1024 769'
cp judged.bin full.bin
[ "$(wc -c <full.bin)" -eq 4620 ]
verdict 'the longest file has 4620 bytes' $?

# junk SIZE: bytes that are no record.
junk() {
    head -c "$1" /dev/zero | tr '\0' '\377'
}
{ cat source.bin; bytes 00; } | answers 'one byte after the end' 'refused 2 at 66'
{ cat source.bin; junk 8126; } | answers '8192 bytes, of which 66 are a table' 'refused 2 at 66'
{ cat source.bin; junk 8127; } | answers '8193 bytes, of which 66 are a table' 'refused 2 at 66'
{ cat full.bin; junk 5000; } | answers 'the longest file and 5000 bytes' 'refused 2 at 4620'
{ head -c 4616 full.bin; for _ in $(seq 300); do bytes "$row0"; done; } >many.bin
answers 'more than 256 transitions' 'refused 3 at 4616' <many.bin
{ bytes "$head"; for _ in $(seq 600); do bytes "$row0"; done; } | answers 'one transition 600 times' 'refused 5 at 26'
run /dev/zero
printed 'input without end: a file' 'refused 2 at 0'
answers 'input without end: a pipe' 'refused 2 at 0' < <(cat /dev/zero 2>/dev/null)

# No more than the first 8,192 bytes are taken from standard input.
{ run; left=$(wc -c); } <many.bin
printed 'more than 8192 bytes' 'refused 3 at 4616'
[ "$left" -eq $(($(wc -c <many.bin) - 8192)) ]
verdict 'what comes after 8192 bytes is not read' $?
{ run; left=$(wc -c); } <full.bin
[ "$left" -eq 0 ] && [ "$(head -n 1 out)" = 'turning 1 2' ]
verdict 'less than 8192 bytes are read to the end' $?

# ---- Input in pieces: each part is written when the program has read what came before ----

cat >pieces.py <<'PYTHON'
# pieces.py FILE SIZE...: writes the file's bytes in parts of these sizes, and what is left. Waits until the pipe is empty
# after each part, so that the reader gets each in a read of its own; ends early if the reader is gone.
import array, fcntl, os, select, sys, termios, time

with open(sys.argv[1], "rb") as file:
    data = file.read()
gone = select.poll()
gone.register(1, 0)
until = time.time() + 300
for size in [int(word) for word in sys.argv[2:]] + [len(data)]:
    part, data = data[:size], data[size:]
    try:
        os.write(1, part)
    except BrokenPipeError:
        break
    waiting = array.array("i", [len(part)])
    while waiting[0] > 0 and not gone.poll(0) and time.time() < until:
        time.sleep(0.002)
        fcntl.ioctl(1, termios.FIONREAD, waiting)
PYTHON
pieces() {
    python3 pieces.py "$@"
}
# in_pieces NAME FIRST_LINE FILE SIZE...: the script, and the program itself, answer so if the input comes in these pieces.
in_pieces() {
    local name=$1 line=$2
    shift 2
    pieces "$@" | timeout 120 "$judge" 2>/dev/null | head -n 1 | grep -qx "$line"
    verdict "in pieces: $name" $?
    pieces "$@" | timeout 120 "${program[@]}" 2>/dev/null | head -n 1 | grep -qx "$line"
    verdict "in pieces, the program itself: $name" $?
}
for file in source full; do
    pieces "$file.bin" 4 40 | "${order_program[@]}" >pieced
    "$judge" --order "$file.bin" | cmp -s - pieced && grep -q '^overtaken 1 ' pieced
    verdict "in pieces, the order program itself: $file" $?
done
in_pieces 'four bytes first' 'turning 1 3' source.bin 4
in_pieces 'one byte first' 'turning 1 3' source.bin 1 65
in_pieces 'cut within records' 'turning 1 3' source.bin 27 20 18
in_pieces 'the longest file' 'turning 1 2' full.bin 4100 519
in_pieces 'more than a page at once' 'turning 1 2' full.bin 10 4609
in_pieces 'more than 8192 bytes' 'refused 3 at 4616' many.bin 3000 1620 4000
head -c 30 source.bin >cut.bin
in_pieces 'cut off' 'refused 1 at 26' cut.bin 10 16
# shellcheck disable=SC2046
in_pieces 'byte by byte' 'turning 1 3' source.bin $(yes 1 | head -n 65)
pieces "$root/examples/source-trace.table" 1 2 3 400 | answers 'in pieces: a text' "${source_lines[@]}"

# ---- What cannot be read or written ends the program, and is said ----

# ended STATUS WORDS NAME: the program itself had status 1, and said so by one line with these words on standard error alone.
ended() {
    [ "$1" -eq 1 ] && [ ! -s out ] && [ "$(wc -l <err)" -eq 1 ] && grep -q "^Error: .*$2" err
    verdict "$3" $?
}
for name in judge order; do
    PYTHONPATH=$root/tools python3 -B -m desk.program "$name" | mapfile -t one
    "${one[@]}" <"$work" >out 2>err
    ended $? 'Is a directory' "a read error, the program itself: $name"
    : >out
    "${one[@]}" <source.bin 2>err >/dev/full
    ended $? 'No space left' "a failed write, the program itself: $name"
    exec 9> >(exec true)  # a pipe whose reader is gone
    wait $!
    "${one[@]}" <source.bin 2>err >&9
    ended $? 'Broken pipe' "a closed pipe, the program itself: $name"
    exec 9>&-
done

# ---- Text or table file: text is UTF-8 without control characters, and its first word begins a line ----

text=$root/examples/source-trace.table
run "$text"
printed 'text: a file' "${source_lines[@]}"
answers 'text: standard input' "${source_lines[@]}" <"$text"
run - <"$text"
printed 'text: - is standard input' "${source_lines[@]}"
sed 's/$/\r/' "$text" | answers 'text: CRLF' "${source_lines[@]}"
tr '\n' '\r' <"$text" | answers 'text: CR' "${source_lines[@]}"
{ bytes efbbbf; cat "$text"; } | answers 'text: BOM' "${source_lines[@]}"
{ bytes efbbbf; sed 's/$/\r/' "$text"; } | answers 'text: BOM and CRLF' "${source_lines[@]}"
{ sed 's/^/  \t/' "$text"; printf '# no end of line'; } | answers 'text: spaces and tabs' "${source_lines[@]}"
{ for _ in $(seq 400); do echo '# more than eight thousand bytes'; done; cat "$text"; } | answers 'text: long comments' "${source_lines[@]}"
{ head -c 8190 /dev/zero | tr '\0' ' '; cat "$text"; } | answers 'text: its first word over a limit of reading' "${source_lines[@]}"
{ head -c 52428800 /dev/zero | tr '\0' '#'; echo; cat "$text"; } >long.table
run long.table
printed 'text: 50 MB' "${source_lines[@]}"
head -c 52428800 /dev/zero | tr '\0' '#' | answers '50 MB without a word' 'refused 2 at 0'
{ cat source.bin; head -c 52428800 /dev/zero; } >long.bin
run long.bin
printed 'a table file and 50 MB' 'refused 2 at 66'
{ cat "$text"; head -c 52428800 /dev/zero; } | answers 'a text and 50 MB of bytes: no text' 'refused 2 at 0'
yes '# no end' 2>/dev/null | { run; }
trouble 'more than 64 MiB of text' 'text: without end'
rm -f long.table long.bin

# no_text NAME PATTERN: what is on standard input goes to the program as it is, and standard error says why.
no_text() {
    cat >no.table
    run no.table
    "${program[@]}" <no.table | cmp -s - out && [ "$status" -eq 2 ] && grep -q "$2" err
    verdict "no text: $1" $?
}
no_text 'its first word' "first word is 'hello'" <<<'hello'
no_text 'a sign first' "first word is '-1'" <<<'-1 -> 0'
no_text 'comments alone' 'no table file\|at byte 0' <<<'# nothing else'
{ cat "$text"; bytes 00; } | no_text 'a zero byte' 'control character'
{ cat "$text"; bytes c285; } | no_text 'a control character beyond ASCII' 'control character'
{ printf '# caf\xe9\n'; cat "$text"; } | no_text 'Latin-1' 'not UTF-8'
{ cat "$text"; bytes c3; } | no_text 'UTF-8 that is cut off' 'not UTF-8'
{ bytes efbbbf; } | no_text 'a BOM alone' 'at byte 0'

# bad_text LINE NAME: the text on standard input has no file; standard error says where, and nothing is printed.
bad_text() {
    run
    [ "$status" -eq 2 ] && [ ! -s out ] && grep -q "^standard input:$1: " err
    verdict "bad text: $2" $?
}
bad_text 2 'a word that is no number' <<<$'states 2 initial 0\n0 -> x input 0 output 0 (1,2] delay 1'
bad_text 1 'no head' <<<'letter a 1'
printf 'states 2 initial 0\n\n0 -> 1 input 0 outpt 0 (1,2] delay 1\n0 -> 1 input 0 output 0 (1,2] dely 1\n' | bad_text 3 'two lines, the first'
grep -q '^standard input:4: ' err
verdict 'bad text: two lines, the second' $?

# Faults that a file can have are judged by the program, and standard error has the line.
printf 'states 2 initial 0\n0 -> 1 input 0 output 0 (1,2] delay 1\n\n0 -> 1 input 0 output 0 (1,70000] delay 1\n' |
    answers 'text: a number out of range' 'refused 4 at 26'
grep -q '^standard input:4: guard (1,70000\]' err && grep -q '^standard input:4: refused 4: a number outside its range' err
verdict 'text: a number out of range, its line' $?
printf '0 -> 1 input 0 output 0 (1,2] delay 1\n%.0s' 1 2 | sed '1i states 2 initial 0' | answers 'text: equal transitions' 'refused 5 at 26'
grep -q '^standard input:3: equal to transition 0 on line 2' err
verdict 'text: equal transitions, the line' $?
{ full 3; echo '0 -> 1 input 255 output 255 (1,2] delay 4'; } | answers 'text: a 257th transition' 'refused 3 at 4616'
grep -q '^standard input:258: more than 256' err
verdict 'text: a 257th transition, its line' $?
answers 'text: no states' 'refused 4 at 0' <<<'states 0 initial 0'
answers 'a refusal in words' 'refused 1 at 26' <cut.bin
grep -q '^standard input: at byte 26: refused 1: a record is cut off' err
verdict 'a refusal in words: standard error' $?

# ---- The script ----

run nowhere.bin
trouble 'nowhere\.bin: there is no such file' 'a file that is not there'
run "$work"
trouble 'directory' 'a directory'
run <"$work"
trouble 'closed or a directory' 'a directory on standard input'
run ''
trouble 'no such file' 'an empty name'
run /proc/self/mem
trouble "can't be read: Input/output error" 'a read error'
run <&-
trouble 'standard input is closed' 'standard input is closed'
run - <&-
trouble 'standard input is closed' '- is closed'
run source.bin <&-
printed 'a file, standard input being closed' "${source_lines[@]}"
: >out
"$judge" source.bin >&- 2>err
status=$?
trouble 'standard output is closed' 'standard output is closed'
"$judge" source.bin >out 2>&-
status=$?
: >err
printed 'standard error is closed' "${source_lines[@]}"
"$judge" <cut.bin >out 2>&-
[ $? -eq 2 ] && [ "$(cat out)" = 'refused 1 at 26' ]
verdict 'standard error is closed: a refusal' $?
run source.bin source.bin
trouble '\./judge \[OPTIONS\] \[FILE\]' 'two files'
run --nothing
trouble '^--nothing: there is no such option' 'an option that is not there'
for option in -h --help; do
    run "$option"
    [ "$status" -eq 0 ] && [ ! -s err ] && grep -q '\./judge \[OPTIONS\] \[FILE\]' out
    verdict "$option" $?
done
mkdir 'a folder'
cp source.bin 'a folder/a table'
cp source.bin ./-x
cp "$text" 'a folder/größe é'
(cd 'a folder' && "$judge" 'a table' >../out 2>../err)
status=$?
printed 'a name with a space, in another folder' "${source_lines[@]}"
run 'a folder/größe é'
printed 'a name in letters of another script' "${source_lines[@]}"
run -- -x
printed 'a name with a dash' "${source_lines[@]}"
ln -s "$judge" linked
(cd / && "$work/linked" "$work/source.bin") >out 2>err
status=$?
printed 'called by a link' "${source_lines[@]}"
"$judge" source.bin >/dev/full 2>err
[ $? -eq 3 ] && grep -q 'standard output: No space' err && [ "$(wc -l <err)" -eq 1 ]
verdict 'an answer that can not be written' $?
PATH=$work/none "$(command -v bash)" "$judge" source.bin >out 2>err
[ $? -ne 0 ]
verdict 'no commands at all' $?
mkdir no-python
for tool in bash dirname readlink; do ln -s "$(command -v "$tool")" no-python/; done
PATH=$work/no-python bash "$judge" source.bin >out 2>err
status=$?
trouble "no command 'python3'" 'no Python'

# The checkout, as it must be for the script: the program as it is built, and the sources of the script.
checkout() {
    mkdir -p "$1/crates/judge/src" "$1/crates/order/src" "$1/tools"
    cp "$judge" "$1/judge"
    cp -r "$root/tools/desk" "$1/tools/"
    printf 'wire:\ntable: wire  # the reader\njudge status=0: table io\nother staticlib: judge\norder: table\n' >"$1/crates.txt"
    touch "$1/crates/judge/src/main"
}

# A checkout that may not be written, and a file that may not be read, asked for by another user.
chmod 755 "$work"
checkout sealed
mkdir -p sealed/crates/judge/out
cp "$root/crates/judge/out/judge" sealed/crates/judge/out/judge
cp source.bin secret.bin
chmod 000 secret.bin
chmod -R a-w,a+rX sealed
another_user sealed/judge source.bin >out 2>err
status=$?
printed 'a checkout that may not be written' "${source_lines[@]}"
another_user sealed/judge secret.bin >out 2>err
status=$?
trouble 'secret\.bin: may not be read' 'a file that may not be read'
chmod -R u+w sealed
touch -d '+1 minute' sealed/crates/judge/src/main
chmod -R a-w sealed
another_user sealed/judge source.bin >out 2>err
status=$?
trouble 'must be built.*can.t be done here.*Permission denied' 'a source is newer, and nothing may be written'
chmod -R u+w sealed
rm sealed/crates/judge/out/judge
chmod -R a-w sealed
another_user sealed/judge source.bin >out 2>err
status=$?
trouble "must be built" 'nothing is built, and nothing may be written'
chmod -R u+w sealed

# No toolchain: a PATH with the few commands that are used before it is looked for.
checkout fresh
mkdir few
for tool in bash dirname readlink; do ln -s "$(command -v "$tool")" few/; done
ln -s "$(python3 -c 'import sys; print(sys.executable)')" few/python3
PATH=$work/few bash fresh/judge source.bin >out 2>err
status=$?
trouble "no command 'rt'" 'no toolchain'

# In a folder where nothing is built, with a stand-in for rt that fails or copies the program.
kit=${RATTLE_HOME:-$(dirname "$(dirname "$(readlink -f "$(command -v rt)")")")}
mkdir -p stand-in
# with_rt ARGUMENT...: calls the script of that folder, which finds the stand-in.
with_rt() {
    RATTLE_HOME=$kit PATH=$work/stand-in:$PATH fresh/judge "$@" >out 2>err
    status=$?
}
printf '#!/bin/sh\necho "fn judge::main: no proof"\necho "rt: judge NOT PROVED"\nexit 1\n' >stand-in/rt
chmod +x stand-in/rt
with_rt source.bin
trouble 'the program was not built' 'a build that fails'
grep -q 'fn judge::main: no proof' err
verdict 'a build that fails: why' $?
cat >stand-in/rt <<STAND_IN
#!/bin/sh
name=\${PWD##*/}
case "\$* \$name" in 'run judge' | 'run order') ;; *) exit 2 ;; esac
cat >/dev/null
echo "\$name" >>"$work/asked"
mkdir -p out
cp "$root/crates/\$name/out/\$name" "out/\$name"
for crate in table "\$name"; do
    echo "rt: chose --jobs 2 for \$crate"
    echo "fn \$crate::some: proved"
    echo 'logic=proved functions=1'
done
echo 'refused 1 at 0'
STAND_IN
with_rt <source.bin
printf '%s\n' "${source_lines[@]}" | cmp -s - out && [ "$status" -eq 1 ]
verdict 'a fresh folder: the program is built and the input is not lost' $?
printf 'judge: %s\n' 'building what is missing or has changed; from nothing this takes minutes' \
    '2 of 3: table proved (N s)' '3 of 3: judge proved (N s)' | cmp -s - <(sed 's/([0-9]* s)$/(N s)/' err)
verdict 'a fresh folder: how far it is, on standard error' $?
with_rt --order <source.bin
printf '%s\n' "${order_lines[@]}" | cmp -s - out && [ "$status" -eq 1 ] && grep -qx 'judge: 3 of 3: order proved ([0-9]* s)' err && [ "$(wc -l <err)" -eq 3 ]
verdict 'order: its program is built when it is asked for' $?
rm fresh/crates/judge/out/judge
with_rt source.bin
printf '%s\n' "${source_lines[@]}" | cmp -s - out && [ "$status" -eq 1 ] && grep -q 'building' err
verdict 'a program that was removed is built again' $?
# asked NAME: the last call asked the toolchain, and got the answer; not_asked NAME: it did not, and got it.
asked() { printf '%s\n' "${source_lines[@]}" | cmp -s - out && [ -s asked ]; verdict "$1" $?; }
not_asked() { printf '%s\n' "${source_lines[@]}" | cmp -s - out && [ ! -e asked ]; verdict "$1" $?; }
rm -f asked
with_rt source.bin
not_asked 'nothing was touched since it was built: the toolchain is not asked'
touch -d '1 hour ago' fresh/crates/judge/src/main
with_rt source.bin
asked 'a source that was touched, its time set back: it is asked'
rm -f asked
with_rt source.bin
not_asked 'and not again'
touch fresh/crates/judge/src/more
with_rt source.bin
asked 'a new file: it is asked'
rm -f asked
# gate NAME: notes for the gate in that folder, before it or once it has passed.
gate() { (cd fresh && RATTLE_HOME=$kit PATH=$work/stand-in:$PATH PYTHONPATH=tools python3 -B -m desk.program "$@"); }
rm fresh/target/judge.built
gate --before judge && cp "$root/crates/judge/out/judge" fresh/crates/judge/out/judge && gate --after judge
with_rt source.bin
not_asked 'the gate has built the program: the toolchain is not asked'
rm fresh/target/judge.built
gate --before judge && touch fresh/crates/judge/src/more && gate --after judge
with_rt source.bin
asked 'a source that was touched while the gate ran: it is asked'
rm -f asked
rm fresh/target/judge.built fresh/crates/judge/out/judge
gate --before judge && gate --after judge
with_rt source.bin
asked 'a gate that built no program: it is asked'
rm -f asked
mkdir other && ln -s "$kit/toolchain" other/toolchain && echo 'another toolchain' >other/KIT-ID
kit=$work/other with_rt source.bin
asked 'another toolchain: it is asked'
rm -f asked
with_rt source.bin
rm -f asked
cp -r fresh copied
RATTLE_HOME=$kit PATH=$work/stand-in:$PATH copied/judge source.bin >out 2>err
asked 'built from the files of another checkout: it is asked'
printf '#!/bin/sh\necho "rt: judge NOT PROVED"\nexit 1\n' >stand-in/rt
with_rt source.bin
trouble 'the program was not built' 'a stale program is not run'
printf '#!/bin/sh\nexit 0\n' >stand-in/rt
rm fresh/crates/judge/out/judge
with_rt source.bin
trouble 'the program was not built' 'a build that builds nothing'
printf '#!/bin/sh\ncp /bin/true out/judge\n' >stand-in/rt
with_rt source.bin
[ "$status" -eq 3 ] && [ ! -s out ] && [ -s err ]
verdict 'a program that does not answer' $?
# A toolchain whose loader prints and then ends with an error, and an emulator that runs it, on a machine that wants one.
mkdir -p ending/toolchain/lib && echo 'a toolchain that ends' >ending/KIT-ID
printf '#!/bin/sh\necho strict\necho Error: no more >&2\nexit 1\n' >ending/toolchain/lib/ld-linux-x86-64.so.2
printf '#!/bin/sh\nexec "$@"\n' >stand-in/qemu-x86_64
chmod +x ending/toolchain/lib/ld-linux-x86-64.so.2 stand-in/qemu-x86_64
kit=$work/ending with_rt source.bin
trouble '^judge: the program ended with status 1$' 'a program that ends with an error: its answer does not count'
grep -qx 'Error: no more' err
verdict 'a program that ends with an error: why' $?

# Calls at the same time do not disturb each other.
for i in 1 2 3 4; do
    "$judge" source.bin >"out$i" 2>"err$i" &
done
wait
printf '%s\n' "${source_lines[@]}" >expected
for i in 1 2 3 4; do
    cmp -s expected "out$i" && [ ! -s "err$i" ]
    verdict "four calls at once: call $i" $?
done

finish
