#!/usr/bin/env bash
# Tests ./play and the program that it builds: both timings of a witness, every kind of move and of refusal, names
# and numbers, what a user mistypes, and wrong calls. The answers are worked out from the rules.
#
#   tests/play.sh
#
# The last line is 'N passed, 0 failed'.

# shellcheck source=tests/common.sh
. "$(dirname "$0")/common.sh" || exit 1
play=$root/play
table=$root/tools/table
wide=$root/examples/download-wide

# The program is built now, so that later calls have nothing to say on standard error.
"$play" "$wide.table" </dev/null || exit 1
PYTHONPATH=$root/tools python3 -B -m desk.program play | mapfile -t program
[ "${#program[@]}" -gt 1 ] || exit 1

# run ARGUMENT...: calls the script on standard input; its output is in out and err, its status in $status.
run() {
    timeout 120 "$play" "$@" >out 2>err
    status=$?
}

# played STATUS NAME LINE...: the last run printed exactly these lines.
played() {
    local wanted=$1 name=$2
    shift 2
    printf '%s\n' "$@" | cmp -s - out && [ "$status" -eq "$wanted" ] && ! grep -q Traceback err
    verdict "$name" $?
}

# silent NAME: the last run said nothing on standard error.
silent() {
    [ ! -s err ]
    verdict "$1: nothing is said" $?
}

# told PATTERN NAME: standard error of the last run has such a line.
told() {
    grep -q -- "$1" err && ! grep -q Traceback err
    verdict "$2" $?
}

# nothing STATUS PATTERN NAME: the last run printed nothing, and said this.
nothing() {
    [ "$status" -eq "$1" ] && [ ! -s out ] && grep -q -- "$2" err && ! grep -q Traceback err
    verdict "$3" $?
}

# moves MOVE...: a line each.
moves() {
    printf '%s\n' "$@"
}

# ---- Both timings that the judge shows of the incident's table ----

begin=(
    'at 153600 in idle; none waits'
    'at 153600 in loading; step 1 takes transition 0, line 55; waits: 1 connecting 512'
    'at 154112 in loading; issued: 1 connecting at 154112; none waits'
    'at 179200 in loading; none waits'
    'at 179200 in failed; step 2 takes transition 4, line 62; waits: 2 download_failed 15360'
)
moves 'time 153600' 'input request' run 'time 25088' 'input link_lost' 'time 513' 'input map_found' run | run "$wide.table"
played 0 'the early timing: use_map comes first' "${begin[@]}" \
    'at 179713 in failed; waits: 2 download_failed 14847' \
    'at 179713 in old_map; step 3 takes transition 5, line 65; waits: 2 download_failed 14847, 3 use_map 1280' \
    'at 194560 in old_map; issued: 3 use_map at 180993, 2 download_failed at 194560; none waits'
silent 'the early timing'
moves 'time 153600' 'input request' run 'time 25088' 'input link_lost' run 'time 7680' 'input map_found' run | run "$wide.table"
played 0 'the late timing: download_failed comes first' "${begin[@]}" \
    'at 194560 in failed; issued: 2 download_failed at 194560; none waits' \
    'at 202240 in failed; none waits' \
    'at 202240 in old_map; step 3 takes transition 5, line 65; waits: 3 use_map 1280' \
    'at 203520 in old_map; issued: 3 use_map at 203520; none waits'
silent 'the late timing'

# A table file has no names and no lines.
moves 'time 153600' 'input 0' 'time 512' output | run "$wide.bin"
played 0 'a table file' 'at 153600 in 0; none waits' 'at 153600 in 1; step 1 takes transition 0; waits: 1 10 512' \
    'at 154112 in 1; waits: 1 10 0' 'at 154112 in 1; issued: 1 10 at 154112; none waits'
silent 'a table file'

# ---- Moves that are refused change nothing, and are told with their line ----

moves 'time 15360' 'input request' 'time 1' 'input request' output 'time 513' 'time 512' 'time 1' 'input packet' 'time 0' output output |
    run "$wide.table"
closed='no transition is open: idle takes request in (60,600], and it is 60 ticks after the start'
played 1 'moves that are refused' 'at 15360 in idle; none waits' \
    "refused 10: line 2, input request: $closed; at 15360 in idle; none waits" \
    'at 15361 in idle; none waits' \
    'at 15361 in loading; step 1 takes transition 0, line 55; waits: 1 connecting 512' \
    'refused 11: line 5, output: the next response falls due in 512; at 15361 in loading; waits: 1 connecting 512' \
    'refused 11: line 6, time 513: the next response falls due in 512; at 15361 in loading; waits: 1 connecting 512' \
    'at 15873 in loading; waits: 1 connecting 0' \
    'refused 11: line 8, time 1: a response is due, and must be issued first; at 15873 in loading; waits: 1 connecting 0' \
    'refused 11: line 9, input packet: a response is due, and must be issued first; at 15873 in loading; waits: 1 connecting 0' \
    'at 15873 in loading; waits: 1 connecting 0' \
    'at 15873 in loading; issued: 1 connecting at 15873; none waits' \
    'refused 11: line 12, output: no response waits; at 15873 in loading; none waits'
silent 'moves that are refused'

moves 'input packet' 'input 256' 'input 65535' run 'time 4294967295' 'time 4294967295' | run "$wide.table"
played 1 'letters that open nothing, a run of nothing, long times' \
    'refused 10: line 1, input packet: no transition leaves idle with packet; at 0 in idle; none waits' \
    'refused 10: line 2, input 256: no transition leaves idle with 256; at 0 in idle; none waits' \
    'refused 10: line 3, input 65535: no transition leaves idle with 65535; at 0 in idle; none waits' \
    'at 0 in idle; issued: none; none waits' 'at 4294967295 in idle; none waits' 'at 8589934590 in idle; none waits'

# At equal times the earlier step's response comes first; two wait.
echo $'states 2 initial 0\n0 -> 1 input 1 output 5 (1,5] delay 4\n1 -> 0 input 2 output 6 (1,5] delay 2' >equal.table
moves 'time 512' 'input 1' 'time 512' 'input 2' 'time 512' output output | run equal.table
played 0 'two are due at once' 'at 512 in 0; none waits' 'at 512 in 1; step 1 takes transition 0, line 2; waits: 1 5 1024' \
    'at 1024 in 1; waits: 1 5 512' 'at 1024 in 0; step 2 takes transition 1, line 3; waits: 1 5 512, 2 6 512' \
    'at 1536 in 0; waits: 1 5 0, 2 6 0' 'at 1536 in 0; issued: 1 5 at 1536; waits: 2 6 0' 'at 1536 in 0; issued: 2 6 at 1536; none waits'

# 512 inputs and one more, each 1 1/256 tick after the one before.
echo $'states 1 initial 0\n0 -> 0 input 1 output 2 (1,5] delay 1' >loop.table
{
    moves 'time 257' 'input 1' run
    for ((i = 1; i < 513; i++)); do moves 'time 1' 'input 1' run; done
} | run loop.table
[ "$status" -eq 1 ] && [ "$(grep -c '; step ' out)" -eq 512 ] && [ "$(tail -n 2 out | head -n 1)" = \
    'refused 14: line 1538, input 1: 512 inputs were played, and no more can be; at 131841 in 0; none waits' ]
verdict 'a 513th input' $?

# ---- What is no move is told by line, and the rest is played ----

moves 'imput request' 'input' 'input request now' 'output 1' 'time' 'time soon' 'time -1' 'time 1.5' 'time 4294967296' \
    'time 99999999999999999999999' 'input reqest' 'input use_map' 'input idle' 'input 65536' 'input -1' 'Run' 'time 1' | run "$wide.table"
played 1 'lines that are no moves' 'at 1 in idle; none waits'
told "^standard input:1: 'imput' is no move: a move is 'time N', 'input LETTER', 'output' or 'run'\$" 'no such move'
told "^standard input:2: the line ends after 'input'" 'no letter'
told "^standard input:3: 'now' after the end of the move" 'too many words'
told "^standard input:4: '1' after the end of the move" 'a number after output'
told "^standard input:5: the line ends after 'time'" 'no time'
told "^standard input:6: time: 'soon' is not a whole number" 'a time in words'
told "^standard input:7: time: '-1' is not a whole number" 'a time below 0'
told "^standard input:8: time: '1.5' is not a whole number" 'a time with a point'
told '^standard input:9: 4294967296 is too large: at most 4294967295' 'a time too large by 1'
told '^standard input:10: 99999999999999999999999 is too large' 'a time far too large'
told "^standard input:11: input: .*download-wide.table gives no input the name 'reqest'; is 'request' meant?" 'a misspelt letter'
told "^standard input:12: input: 'use_map' names an output (.*download-wide.table:50), no input" 'an output letter'
told "^standard input:13: input: 'idle' names a state (.*download-wide.table:31), no input" 'a state'
told '^standard input:14: 65536 is too large: letters are 0 to 255' 'a letter too large'
told "^standard input:15: input: .* gives no input the name '-1'" 'a letter below 0'
told "^standard input:16: 'Run' is no move" 'a capital letter'
[ "$(wc -l <err)" -eq 16 ]
verdict 'a line each' $?
moves 'input request' | run "$wide.bin"
[ "$status" -eq 1 ] && [ ! -s out ]
verdict 'a name for a table file' $?
told "^standard input:1: input: 'request' is no number, and a table file has no names" 'a name for a table file: why'
{ head -c 10000 /dev/zero | tr '\0' x; echo; echo 'time 1'; } | run "$wide.table"
played 1 'a line without end' 'at 1 in idle; none waits'
told '^standard input:1: the line is far too long' 'a line without end: why'
printf 'time 1\xff\n\xfe\n' | run "$wide.table"
[ "$status" -eq 1 ] && [ "$(wc -l <err)" -eq 2 ] && ! grep -q Traceback err
verdict 'bytes that are no UTF-8' $?
printf '# all of this\r\n\r\n   \n\ttime  5  # is well\r\ntime 007' | run "$wide.table"
played 0 'comments, empty lines, line ends' 'at 5 in idle; none waits' 'at 12 in idle; none waits'
silent 'comments, empty lines, line ends'

# ---- The end of input ----

run "$wide.table" </dev/null
[ "$status" -eq 0 ] && [ ! -s out ] && [ ! -s err ]
verdict 'no moves' $?
moves 'time 153600' 'input request' | run "$wide.table"
[ "$status" -eq 0 ] && [ "$(wc -l <out)" -eq 2 ]
verdict 'the moves end early' $?
told "the moves end while 1 response waits; 'run' would issue what waits" 'the moves end early: what waits'

# Answers come at once: each move is sent after the answer to the one before.
coproc "$play" "$wide.table" 2>/dev/null
live=0
for move in 'time 153600' 'input request' run; do
    echo "$move" >&"${COPROC[1]}"
    IFS= read -r -t 60 -u "${COPROC[0]}" line && live=$((live + 1))
done
exec {COPROC[1]}>&-
wait
[ "$live" -eq 3 ] && [ "$line" = 'at 154112 in loading; issued: 1 connecting at 154112; none waits' ]
verdict 'answers come at once' $?

# ---- No table ----

moves 'time 1' | run "$root/examples/split.table"
nothing 2 'split.table: refused 13: the table is split' 'a split table'
echo $'states 2 initial 0\n0 -> 2 input 1 output 5 (1,5] delay 4' >bad.table
moves 'time 1' | run bad.table
nothing 2 '^bad.table:2: arrival state 2: the states are 0 to 1' 'a text with a bad number'
told '^bad.table:2: refused 4: ' 'a text with a bad number: the refusal'
echo $'states 2 initial 0\n0 -> 1 inptu 1' >bad.table
moves 'time 1' | run bad.table
nothing 2 "^bad.table:2: 'inptu' where 'input' must stand" 'a text that can not be read'
head -c 20 "$wide.bin" >cut.bin
moves 'time 1' | run cut.bin
nothing 2 '^cut.bin: at byte 8: refused 1: a record is cut off' 'a file that is cut off'
moves 'time 1' | run /dev/null
nothing 2 'refused 1: ' 'an empty file'

# ---- Wrong calls ----

run nowhere.table </dev/null
nothing 3 '^play: nowhere.table: there is no such file' 'a file that is not there'
run . </dev/null
nothing 3 'directory' 'a directory'
run - <"$wide.table"
nothing 3 'the moves come on standard input, so the table must be a file' 'the table on standard input'
run </dev/null
nothing 3 'too few words' 'no table'
run "$wide.table" "$wide.bin" </dev/null
nothing 3 'too many words' 'two tables'
run --fast "$wide.table" </dev/null
nothing 3 '^--fast: there is no such option' 'an option that is not there'
run "$wide.table" <&-
nothing 3 'standard input, where the moves are read, is closed' 'standard input is closed'
run "$wide.table" <.
nothing 3 'closed or a directory' 'a directory on standard input'
moves 'time 1' | timeout 120 "$play" "$wide.table" 2>err >/dev/full
[ "${PIPESTATUS[1]}" -eq 3 ] && grep -q 'standard output: No space' err && ! grep -q Traceback err
verdict 'standard output is full' $?
run --help
[ "$status" -eq 0 ] && grep -q 'input LETTER' out && [ ! -s err ]
verdict 'the help' $?

# A program that ends: a checkout with a stand-in for rt, and for the toolchain one whose loader answers the table and then ends,
# with an error or without; an emulator that runs it, on a machine that wants one.
mkdir -p ends/crates/play/src ends/tools stand-in ending/toolchain/lib
cp "$play" ends/play
cp -r "$root/tools/desk" ends/tools/
echo 'play:' >ends/crates.txt
echo 'a toolchain that ends' >ending/KIT-ID
printf '#!/bin/sh\nmkdir -p out && touch out/play\n' >stand-in/rt
printf '#!/bin/sh\nexec "$@"\n' >stand-in/qemu-x86_64
loader=ending/toolchain/lib/ld-linux-x86-64.so.2
printf '#!/bin/sh\nhead -c 1 >/dev/null\necho done 0 0 state 0 0 0\n[ "$ENDS" -eq 0 ] || echo Error: no more >&2\nexit "$ENDS"\n' >$loader
chmod +x stand-in/* $loader
# ends STATUS: plays there what is on standard input.
ends() {
    ENDS=$1 RATTLE_HOME=$work/ending PATH=$work/stand-in:$PATH ends/play "$wide.table" >out 2>err
    status=$?
}
moves 'time 1' 'time 2' | ends 1
nothing 3 '^play: the program ended with status 1$' 'a program that ends with an error'
told '^Error: no more$' 'a program that ends with an error: why'
ends 1 </dev/null
nothing 3 '^play: the program ended with status 1$' 'a program that ends with an error after the last move'
moves 'time 1' | ends 0
nothing 3 '^play: the program has ended: it plays at most a million moves$' 'a program that ends'
ends 0 </dev/null
[ "$status" -eq 0 ] && [ ! -s out ]
verdict 'a program that ends after the last move' $?

# ---- The program itself: what is cut off, or of no kind, ends it ----

# direct NAME LINE...: the program prints this for the bytes on standard input.
direct() {
    local name=$1
    shift
    "${program[@]}" >out
    status=$?
    played 0 "$name" "$@"
}
file=$(od -An -v -tx1 "$root/examples/split.bin" | tr -d ' \n')
true >err
direct 'program: nothing' 'refused 1 at 0' </dev/null
bytes 4600 0600 | direct 'program: a file that is cut off' 'refused 1 at 0'
bytes "$(printf '%02x00' $((${#file} / 2)))" "$file" 0001000000 | direct 'program: a split table' 'refused 13 state 0 0 0'
loop='0600 0100 0100 0000 1000 0200 0000 0100 0200 0000 0100 0500 0100 0200 0300'
bytes 1e00 "$loop" 0001010000 0101000000 0300000000 0001000000 | direct 'program: a move of no kind' \
    'done 0 0 state 0 0 0' 'done 0 0 state 0 257 0' 'done 0 0 state 0 0 1 waits 1 2 256'
bytes 1e00 "$loop" 00010100 | direct 'program: a move that is cut off' 'done 0 0 state 0 0 0'
# What can't be read or written ends it too, with status 1 and a line that says why.
"${program[@]}" <. >out 2>err
status=$?
nothing 1 '^Error: .*Is a directory' 'program: a read error'
: >out
bytes 1e00 "$loop" | "${program[@]}" 2>err >/dev/full
status=${PIPESTATUS[1]}
nothing 1 '^Error: .*No space left' 'program: a failed write'
exec 9> >(exec true)  # a pipe whose reader is gone
wait $!
bytes 1e00 "$loop" | "${program[@]}" 2>err >&9
status=${PIPESTATUS[1]}
nothing 1 '^Error: .*Broken pipe' 'program: a closed pipe'
exec 9>&-

finish
