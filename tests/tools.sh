#!/usr/bin/env bash
# Tests tools/table: known texts and files, round trips on the examples and on
# random tables, names, bad texts and their line numbers, damaged files and their
# number and offset, files that are not written over.
#
#   tests/tools.sh
#
# The last line is 'N passed, 0 failed'.

# shellcheck source=tests/common.sh
. "$(dirname "$0")/common.sh" || exit 1
table=$root/tools/table
python=$(python3 -c 'import sys; print(sys.executable)') || exit 1

# run ARGUMENT...: calls the tool; its output is in out and err, its status in $status.
# Python comes without its site packages: the tool needs none, and it starts sooner.
run() {
    "$python" -I -S "$table" "$@" >out 2>err </dev/null
    status=$?
}

# ---- Known texts and files ----
# Seven different numbers in a transition, so that no two can be exchanged unseen.

bytes 0600 0100 0900 0800  1000 0200 0300 fe00 0500 0700 0001 ff0f f000  0200 0300 >known.bin
printf 'states 9 initial 8\n3 -> 7 input 254 output 5 (256,4095] delay 240\n' >known.table
run pack known.table
[ $status -eq 0 ] && [ "$(cat err)" = "known.table:2: warning: transition 0 can't be reached" ] && cmp -s out known.bin
verdict 'pack: a known text, with a warning' $?
run unpack known.bin
sed 's/ *#.*//; /^$/d' out | tr -s ' ' | cmp -s - known.table && [ $status -eq 0 ] && [ ! -s err ]
verdict 'unpack: a known file' $?

bytes 0600 0100 0100 0000  0200 0300 >none.bin
printf '\n# nothing but a head\n\tstates 1   initial 0 # and this\n' >none.table
run pack none.table
[ $status -eq 0 ] && cmp -s out none.bin
verdict 'pack: no transitions' $?
run unpack none.bin
[ $status -eq 0 ] && [ "$(cat out)" = 'states 1 initial 0' ]
verdict 'unpack: no transitions' $?

# Names, letters with two names, no spaces, many spaces, line ends of either kind,
# no last line end: all mean the known table.
printf 'letter in 254\r\nletter also 254\r\nstates 9 initial 8\r\n  letter _5 5\r\n3->7 input also output _5(256,4095]delay 240' >spaces.table
run pack spaces.table
[ $status -eq 0 ] && cmp -s out known.bin
verdict 'pack: names and spaces' $?
printf '\xef\xbb\xbfstates 09 initial 008 # \xc3\xa9 \xff\n3 -> 7 input 254 output 5 ( 256 , 4095 ] delay 240#x' >marks.table
run pack marks.table
[ $status -eq 0 ] && cmp -s out known.bin
verdict 'pack: comments in any encoding' $?

"$table" pack - <known.table >out 2>err && cmp -s out known.bin
verdict 'pack: standard input' $?
"$table" unpack - <known.bin 2>err | "$table" pack - >out 2>err && cmp -s out known.bin
verdict 'unpack and pack: a pipe' $?
run pack known.table target.bin
[ $status -eq 0 ] && [ ! -s out ] && cmp -s target.bin known.bin
verdict 'pack: into a file' $?
run unpack known.bin target.table
run pack target.table
[ $status -eq 0 ] && cmp -s out known.bin
verdict 'unpack: into a file' $?

# Wrong calls, files that are not there or can't be written.
for arguments in '' 'pack' 'mend known.table' 'pack known.table a b' 'pack nowhere.table' \
                 'unpack nowhere.bin' 'pack known.table nowhere/a' 'unpack known.bin nowhere/a'; do
    # shellcheck disable=SC2086
    run $arguments
    [ $status -eq 2 ] && [ ! -s out ] && [ -s err ] && ! grep -q Traceback err
    verdict "status 2: table $arguments" $?
done

# ---- Examples: the text makes the file, the file makes a text that makes the file ----

examples=0
for text in "$root"/examples/*.table; do
    name=$(basename "$text" .table)
    file=${text%.table}.bin
    run pack "$text"
    [ $status -eq 0 ] && [ ! -s err ] && cmp -s out "$file"
    verdict "example $name: text to file" $?
    run unpack --force "$file" again.table
    run pack again.table
    [ $status -eq 0 ] && cmp -s out "$file"
    verdict "example $name: file to text to file" $?
    examples=$((examples + 1))
done
[ "$examples" -ge 6 ] && [ "$examples" -eq "$(find "$root/examples" -name '*.bin' | wc -l)" ]
verdict 'each example is there as text and as file' $?
count=(no one two three four five six seven eight nine ten)
grep -qF "\`examples/\` has ${count[$examples]} tables" "$root/README.md"
verdict 'the README says how many there are' $?
[ "$(wc -c <"$root/examples/source-trace.bin")" -eq 66 ]
verdict 'example source-trace: 66 bytes' $?

# ---- Random tables, each written as a file and as a text by a program of our own ----

mkdir random
python3 - <<'PROGRAM'
import random
import struct

for seed in range(20):
    r = random.Random(seed)
    states = r.choice([1, 2, 5, 31, 32])
    initial = r.randrange(states)
    count = [0, 1, 255, 256][seed] if seed < 4 else r.randrange(0, 40)
    rows = []
    while len(rows) < count:
        u = r.choice([1, 2, 255, 256, 4094, r.randint(1, 4094)])
        v = r.choice([u + 1, 4095, r.randint(u + 1, 4095)])
        row = (r.randrange(states), r.choice([0, 255, r.randrange(256)]), r.randrange(256),
               r.randrange(states), u, v, r.choice([1, 240, r.randint(1, 240)]))
        if row not in rows:
            rows.append(row)
    with open(f"random/{seed}.bin", "wb") as file:
        file.write(struct.pack("<4H", 6, 1, states, initial))
        for row in rows:
            file.write(struct.pack("<9H", 16, 2, *row))
        file.write(struct.pack("<2H", 2, 3))

    def gap():
        return r.choice([" ", "  ", "\t", " \t "])

    def letter(number):
        return f"L{number}x" if number % 3 == 0 else str(number)

    with open(f"random/{seed}.table", "w") as file:
        file.write(f"# random table {seed}\n")
        for number in range(0, 256, 3):
            file.write(f"letter{gap()}L{number}x{gap()}{number}\n")
        file.write(f"states{gap()}{states}{gap()}initial{gap()}{initial}\n")
        for a, i, o, b, u, v, d in rows:
            file.write(r.choice(["", "\n", "# ( -> \n"]))
            words = [f"{a}", "->", f"{b}", "input", letter(i), "output", letter(o), f"({u},{v}]", "delay", f"{d}"]
            file.write(gap().join(words) + r.choice(["", " ", " # ]"]) + "\n")
PROGRAM
for file in random/*.bin; do
    name=${file%.bin}
    run pack "$name.table"
    [ $status -eq 0 ] && ! grep -qv 'warning: transition' err && cmp -s out "$file"
    verdict "$name: text to file" $?
    run unpack --force "$file" again.table
    run pack again.table
    [ $status -eq 0 ] && ! grep -qv 'warning: transition' err && cmp -s out "$file"
    verdict "$name: file to text to file" $?
done
[ "$(wc -c <random/3.bin)" -eq 4620 ]
verdict 'the longest file was among them' $?

# ---- Bad texts ----

# bad LINE PATTERN [LINES]: the text on standard input is refused at that line, with a message that has the pattern,
# and so many lines in all (1); status 1, no output, and no file is made.
bad() {
    cat >bad.table
    rm -f bad.bin
    run pack bad.table bad.bin
    [ $status -eq 1 ] && [ ! -s out ] && [ ! -e bad.bin ] && [ "$(wc -l <err)" -eq "${3-1}" ] &&
        grep -q "^bad\.table:$1: .*$2" err
    verdict "bad text: line $1, $2" $?
}

# bad_row PATTERN ROW...: each row is refused in a table of four states, on line 6.
bad_row() {
    local pattern=$1 row
    shift
    for row in "$@"; do
        bad 6 "$pattern" <<<"# four states
states 4 initial 0
letter a 1

0 -> 1 input a output 2 (5,20] delay 40
$row
3 -> 3 input 0 output 0 (1,2] delay 1"
    done
}

# The head.
bad 1 'without a head' </dev/null
bad 2 'without a head' <<<$'# a comment\nletter a 1'
bad 2 'before the head' <<<$'\n0 -> 0 input 1 output 2 (1,2] delay 3\nstates 1 initial 0'
bad 3 'second head.*line 1' <<<$'states 1 initial 0\n\nstates 1 initial 0'
bad 1 '0 states' <<<'states 0 initial 0'
bad 2 '33 states' <<<$'\nstates 33 initial 0'
bad 1 'initial state 4' <<<'states 4 initial 4'
bad 1 "'-1' is not a whole" <<<'states 4 initial -1'
bad 1 "ends where 'initial'" <<<'states 4'
bad 1 'ends where a number (number of states)' <<<'states'
bad 1 "'start' where 'initial'" <<<'states 4 start 0'
bad 1 "'1' after the end" <<<'states 4 initial 0 1'
bad 2 "'4' is no name" <<<$'states 4 initial 0\nstate 4'
bad 2 "'stat' where" <<<$'states 4 initial 0\nstat 4'

# Letters and names.
bad 2 'letter b 256' <<<$'letter a 255\nletter b 256\nstates 1 initial 0'
bad 3 "'a' was given on line 1" <<<$'letter a 1\nletter b 1\nletter a 1\nstates 1 initial 0'
bad 1 "'1a' is no name" <<<$'letter 1a 1\nstates 1 initial 0'
bad 1 "'delay' has its own meaning" <<<$'letter delay 1\nstates 1 initial 0'
bad 1 'ends where a number (letter a)' <<<$'letter a\nstates 1 initial 0'
bad 1 "'2' after the end" <<<$'letter a 1 2\nstates 1 initial 0'
bad 2 "name 'a'" <<<$'states 1 initial 0\n0 -> 0 input a output 1 (1,2] delay 3\nletter a 1'
bad_row "input: no line.*'b'" '0 -> 1 input b output 2 (5,20] delay 40'
bad_row "output: no line.*'A'" '0 -> 1 input a output A (5,20] delay 40'
bad_row 'input 256' '0 -> 1 input 256 output 2 (5,20] delay 40'
bad_row 'output 256' '0 -> 1 input 2 output 256 (5,20] delay 40'
bad_row 'far too large' '0 -> 1 input 2 output 4294967296 (5,20] delay 40'
bad_row 'letters are' '0 -> 1 input 2 output 0000000000000256 (5,20] delay 40'
bad_row 'byte 0xff where .input' $'0 -> 1 \xff 2 output 4 (5,20] delay 40'
bad 1 'byte 0xff where .states' 2 < <(printf '\xff\xfes\0t\0')
bad_row "'output' where a letter" '0 -> 1 input output 2 (5,20] delay 40'

# Transitions.
bad_row 'departure state 4' '4 -> 1 input a output 2 (5,20] delay 40'
bad_row 'arrival state 4' '0 -> 4 input a output 2 (5,20] delay 40'
bad_row 'lower bound must be at least 1' '0 -> 1 input a output 2 (0,20] delay 40'
bad_row 'below the upper' '0 -> 1 input a output 2 (20,20] delay 40' '0 -> 1 input a output 2 (20,5] delay 40'
bad_row 'at most 4095' '0 -> 1 input a output 2 (5,4096] delay 40' '0 -> 1 input a output 2 (5,65536] delay 40'
bad_row 'delay 0' '0 -> 1 input a output 2 (5,20] delay 0'
bad_row 'delay 241' '0 -> 1 input a output 2 (5,20] delay 241'
bad_row 'equal to transition 0 on line 5' '0 -> 1 input 1 output 2 (5,20] delay 40'
bad_row "'(' must stand" '0 -> 1 input a output 2 [5,20] delay 40' '0 -> 1 input a output 2 5,20 delay 40'
bad_row "')' where ']'" '0 -> 1 input a output 2 (5,20) delay 40'
bad_row "'->' must stand" '0 1 input a output 2 (5,20] delay 40' '0 => 1 input a output 2 (5,20] delay 40'
bad_row "'5.5' is not a whole" '0 -> 1 input a output 2 (5.5,20] delay 40'
bad_row "ends where 'delay'" '0 -> 1 input a output 2 (5,20]' '0 -> 1 input a output 2 (5,20] # delay 40'
bad_row 'ends where a number (delay)' '0 -> 1 input a output 2 (5,20] delay'
bad_row "'again' after the end" '0 -> 1 input a output 2 (5,20] delay 40 again'
bad_row "'a' where" 'a -> 1 input a output 2 (5,20] delay 40'
{
    echo 'states 1 initial 0'
    for v in $(seq 2 258); do echo "0 -> 0 input 0 output 0 (1,$v] delay 1"; done
} | bad 258 'more than 256 transitions'

# ---- Damaged files ----

# refused NUMBER OFFSET NAME: the file on standard input is refused so; status 1,
# no output, and no text is made.
refused() {
    cat >bad.bin
    rm -f bad.table
    run unpack bad.bin bad.table
    [ $status -eq 1 ] && [ ! -s out ] && [ ! -e bad.table ] && [ "$(head -n 1 err)" = "refused $1 at $2" ] &&
        ! grep -q Traceback err
    verdict "damaged file: refused $1 at $2, $3" $?
}

head='0600 0100 0400 0000'
row='1000 0200 0000 0100 0200 0100 0500 1400 2800'
end='0200 0300'

refused 1 0 'empty' </dev/null
bytes "$head" | refused 1 8 'a head alone'
bytes "$end" | refused 2 0 'end without head'
bytes "$row $end" | refused 2 0 'transition without head'
bytes "$head $head $end" | refused 2 8 'second head'
bytes "$head $row $head $end" | refused 2 26 'second head after a transition'
bytes '0500 0100 0400 0000' "$end" | refused 1 0 'length of a head'
bytes "$head" '1100 0200 0000' | refused 1 8 'length of a transition'
bytes "$head $row" '0400 0300 0000' | refused 1 26 'length of an end'
bytes "$head" 'ffff 0400' | refused 2 8 'kind before length'
bytes "$head" '0200 0000' | refused 2 8 'kind 0'
bytes "$head $row $end" 00 | refused 2 30 'a byte after the end'
bytes "$head $row $end $end" | refused 2 30 'a second end'
bytes '0600 0100 0000 0000' "$end" | refused 4 0 'no states'
bytes '0600 0100 2100 0000' "$end" | refused 4 0 '33 states'
bytes '0600 0100 0400 0400' "$end" | refused 4 0 'initial state'
bytes "$head" '1000 0200 0400 0100 0200 0100 0500 1400 2800' "$end" | refused 4 8 'departure'
bytes "$head" '1000 0200 0000 0001 0200 0100 0500 1400 2800' "$end" | refused 4 8 'input'
bytes "$head" '1000 0200 0000 0100 0001 0100 0500 1400 2800' "$end" | refused 4 8 'output'
bytes "$head" '1000 0200 0000 0100 0200 0400 0500 1400 2800' "$end" | refused 4 8 'arrival'
bytes "$head" '1000 0200 0000 0100 0200 0100 0000 1400 2800' "$end" | refused 4 8 'u = 0'
bytes "$head" '1000 0200 0000 0100 0200 0100 1400 1400 2800' "$end" | refused 4 8 'u = v'
bytes "$head" '1000 0200 0000 0100 0200 0100 0500 0010 2800' "$end" | refused 4 8 'v = 4096'
bytes "$head" '1000 0200 0000 0100 0200 0100 0500 1400 0000' "$end" | refused 4 8 'd = 0'
bytes "$head $row" '1000 0200 0000 0100 0200 0100 0500 1400 f100' "$end" | refused 4 26 'd = 241'
bytes "$head $row $row $end" | refused 5 26 'equal transitions'
bytes "$head $row" '1000 0200 0100 0100 0200 0100 0500 1400 2800' "$row" | refused 5 44 'equal to the first'
bytes "$head $row $row" '1000 0200 0000 0100 0200 0100 0500 0010 2800' | refused 5 26 'the first fault counts'
{ head -c 4616 random/3.bin; bytes "$row $end"; } | refused 3 4616 'a 257th transition'
{ head -c 4616 random/3.bin; bytes '1000 0200 ffff ffff ffff ffff ffff ffff ffff'; } | refused 3 4616 'a bad 257th transition'
{ head -c 4616 random/3.bin; bytes "$row" | head -c 17; } | refused 1 4616 'a cut 257th transition'
{ cat random/3.bin; head -c 100000 /dev/zero; } | refused 2 4620 'a long tail'

# The file of the source's trace, cut off: refused where the cut record begins.
for cut in 0 1 3 4 7 8 9 12 25 26 27 30 43 44 47 48 61 62 63 65; do
    at=$((cut < 8 ? 0 : 8 + (cut - 8) / 18 * 18))
    head -c "$cut" "$root/examples/source-trace.bin" | refused 1 $at "cut to $cut bytes"
done

# ---- Calls that can't be served: status 2 and one line ----

# unserved NAME PATTERN: what run left in $status, out and err is that.
unserved() {
    [ "$status" -eq 2 ] && [ ! -s out ] && [ "$(wc -l <err)" -eq 1 ] && grep -q "$2" err
    verdict "$1" $?
}
run pack nowhere.table
unserved 'a text that is not there' '^nowhere\.table: there is no such file'
run unpack ''
unserved 'an empty name' "^'': there is no such file"
"$python" -I -S "$table" pack - >out 2>err <&-
status=$?
unserved 'standard input is closed' 'standard input is closed'
: >out
"$python" -I -S "$table" pack known.table 2>err >&-
status=$?
unserved 'standard output is closed' 'standard output is closed'

# ---- Files are not written over ----

# kept NAME PATTERN FILE COPY: the last run said so with status 2, and the file is as it was.
kept() {
    unserved "$1" "$2"
    cmp -s "$3" "$4"
    verdict "$1: it is as it was" $?
}
cp known.table mine.table
cp known.bin mine.bin
run pack mine.table mine.table
kept 'pack over its own text' 'mine\.table: is read from' mine.table known.table
run pack --force mine.table ./mine.table
kept 'pack over its own text, by force' 'mine\.table: is read from' mine.table known.table
ln -s mine.table same.table
ln mine.table twin.table
run pack --force mine.table same.table
kept 'pack over its own text, by a link' 'same\.table: is read from' mine.table known.table
run pack --force mine.table twin.table
kept 'pack over its own text, by another name' 'twin\.table: is read from' mine.table known.table
run unpack --force mine.bin mine.bin
kept 'unpack over its own file' 'mine\.bin: is read from' mine.bin known.bin
run unpack mine.bin mine.table
kept 'unpack over a text' 'mine\.table: exists' mine.table known.table
run pack spaces.table mine.bin
kept 'pack over another file' 'mine\.bin: exists' mine.bin known.bin
run unpack --names mine.table --force mine.bin mine.table
kept 'unpack over the text with its names' 'mine\.table: is read from' mine.table known.table
run unpack --force mine.bin target.table
[ $status -eq 0 ] && "$table" pack target.table 2>/dev/null | cmp -s - known.bin
verdict 'unpack by force' $?
chmod 600 target.bin
run pack none.table --force target.bin
[ $status -eq 0 ] && cmp -s target.bin none.bin && [ "$(stat -c %a target.bin)" = 600 ]
verdict 'pack by force' $?
run pack none.table new.bin
[ $status -eq 0 ] && [ "$(stat -c %a new.bin)" = "$(printf '%o' $((0666 & ~$(umask))))" ]
verdict 'a new file has the rights of any new file' $?
run pack known.table /dev/null
[ $status -eq 0 ] && [ -c /dev/null ]
verdict 'what is no file may be written' $?
run pack known.table /dev/full
unserved 'a place without room' 'No space left'
[ -z "$(find . -name '.desk-*')" ]
verdict 'nothing is left behind' $?

# ---- Names ----

cat >names.table <<'TEXT'
state idle 0
state übertragung 1   # letters of any script
input отправить 3
input 送信 3
output use_map 3
letter both 7
states 2 initial idle
idle -> übertragung input 送信 output use_map (1,2] delay 3
übertragung -> 0 input both output both (1,2] delay 3
TEXT
printf 'states 2 initial 0\n0 -> 1 input 3 output 3 (1,2] delay 3\n1 -> 0 input 7 output 7 (1,2] delay 3\n' >plain.table
"$table" pack names.table named.bin && "$table" pack plain.table | cmp -s - named.bin
verdict 'names of inputs, outputs and states' $?
run unpack named.bin --names names.table
cp out kept.table
[ $status -eq 0 ] && "$table" pack kept.table | cmp -s - named.bin &&
    grep -q '^idle        -> übertragung  input 送信' kept.table && grep -q '^states 2 initial idle' kept.table &&
    [ "$(head -n 6 kept.table | sort)" = "$(head -n 6 names.table | sed 's/ *#.*//' | sort)" ]
verdict 'unpack with names' $?
echo nonsense >nonsense.table
run unpack known.bin --names nonsense.table
[ $status -eq 1 ] && [ ! -s out ]
verdict 'unpack with the names of a bad text' $?
run pack names.table --names names.table
[ $status -eq 2 ] && [ ! -s out ] && grep -q 'belongs to unpack' err
verdict 'names are for unpacking' $?
# Names stand in the text in one form or the other: é as one character or as two.
printf 'input caf\xc3\xa9 1\nstates 1 initial 0\n0 -> 0 input cafe\xcc\x81 output 1 (1,2] delay 3\n' >forms.table
run pack forms.table
[ $status -eq 0 ]
verdict 'a name in two forms of Unicode' $?
printf 'letter state 5\nletter stop 6\nstates 1 initial 0\n0 -> 0 input state output stop (1,2] delay 3\n' >old.table
run pack old.table
[ $status -eq 0 ] && [ ! -s err ]
verdict 'an old text with a letter that is called state' $?
bad 4 "'a' names an input (line 1), no output" <<<$'input a 1\noutput b 2\nstates 1 initial 0\n0 -> 0 input a output a (1,2] delay 3'
bad 4 "'b' names an output (line 2), no input" <<<$'input a 1\noutput b 2\nstates 1 initial 0\n0 -> 0 input b output a (1,2] delay 3'
bad 3 "'idle' names a state (line 1), no input" <<<$'state idle 0\nstates 1 initial 0\n0 -> 0 input idle output 1 (1,2] delay 3'
bad 2 "'a' was given on line 1" <<<$'input a 1\nletter a 2\nstates 1 initial 0'
bad 1 'the states are 0 to 1' <<<$'state idle 2\nstates 2 initial 0'
bad 1 "'input' has its own meaning" <<<$'state input 0\nstates 2 initial 0'
bad 2 "no line above gives a state the name 'idle'" <<<$'\nstates 2 initial idle'
bad 1 'NO-BREAK SPACE' < <(printf 'states\xc2\xa01 initial 0\n')
bad 2 'RIGHTWARDS ARROW' < <(printf 'states 1 initial 0\n0 \xe2\x86\x92 0 input 1 output 1 (1,2] delay 3\n')

# All that is wrong is told at once, and what rests on a bad line is not told again.
cat >all.table <<'TEXT'
letter a 256
states 2 initial 5
0 -> 1 input a output 2 (5,2] delay 40
0 -> 7 input b output 2 (0,2] delay 0
0 => 1
0 -> 1 input 1 output 2 (5,6] delay 40
0 -> 1 input 1 output 2 (5,6] delay 40
TEXT
run pack all.table
sed 's/^all\.table:\([0-9]*\):.*/\1/' err | tr '\n' ' ' | grep -qx '1 2 4 5 7 '
verdict 'all that is wrong, at once' $?
printf '0 -> 1 input 1 output 1 (1,2] delay 1\n0 -> 7 input 256 output 2 (0,2] delay 0\nstates 2 initial 0\n' >early.table
run pack early.table
[ "$(grep -c '^early\.table:1: ' err)" -eq 1 ] && [ "$(grep -c '^early\.table:2: ' err)" -eq 3 ] && [ "$(wc -l <err)" -eq 4 ]
verdict 'all that is wrong with one line' $?
{ echo 'states 1 initial 0'; yes 'no' | head -n 1000; } | { "$table" pack - >out 2>err; status=$?; }
[ "$status" -eq 1 ] && [ "$(wc -l <err)" -eq 101 ] && tail -n 1 err | grep -q '900 more'
verdict 'too many are counted' $?

finish
