#!/usr/bin/env bash
# Builds examples/host.c, night.c and bench.c and runs them on the examples: what they print and their status.
#
#   tests/host.sh ARCHIVE           with an archive of the library
#   tests/host.sh --kit PREFIX      with what tools/install has put below PREFIX, as pkg-config says, on the shared object
#
# The last line is 'N passed, 0 failed'.
. "$(dirname "$0")/../tools/help.sh"
[ $# -gt 0 ] && what=$(readlink -f "${@: -1}") || { usage >&2; exit 2; }
. "$(dirname "$0")/common.sh"
. "$root/tests/x86.sh"

words=("-I$root/include" -static "$what")
if [ "${1-}" = --kit ]; then
    need pkg-config pkgconf
    export PKG_CONFIG_PATH=$what/lib/pkgconfig LD_LIBRARY_PATH=$what/lib
    read -ra words < <(pkg-config --cflags --libs sandgusset)
    runner=$shared_runner
fi
for program in host night bench; do
    "$cc" -std=c99 -O2 -Wall -Wextra -pedantic -Werror "$root/examples/$program.c" "${words[@]}" -o "$program" || exit 1
done

# run PROGRAM FILE...: what it printed is in out and err, its status in $status.
run() {
    $runner "./$1" "${@:2}" >out 2>err </dev/null
    status=$?
}

# trouble NAME WORDS: the last run printed nothing, had status 2 and said so in these words.
trouble() {
    [ "$status" -eq 2 ] && [ ! -s out ] && grep -qF -e "$2" err
    verdict "$1" $?
}

for name in source-trace download-wide download-narrow split touching map-kept; do
    run host "$root/examples/$name.bin"
    [ "$status" -eq 0 ] && cmp -s out "$root/tests/host/$name.out"
    verdict "$name is judged and played as stored" $?
done

run host "$root/examples/inputs-a-b.bin"
[ "$status" -eq 0 ] && head -n 1 out | grep -qE '^turning: steps K = 1 and M = [0-9]+ respond in either order$'
verdict 'inputs-a-b turns from its first step' $?

head -c 40 "$root/examples/source-trace.bin" >cut
run host cut
[ "$status" -eq 1 ] && grep -q '^refused 1 at 26:' out && [ -z "$(cat err)" ]
verdict 'a cut file is refused, status 1' $?

run host there-is-none
trouble 'a file that is not there, status 2' there-is-none

# ---- A night of words ----

table=$root/examples/source-trace.bin
# night LINE...: these lines are the text, the trace first.
night() {
    printf '%s\n' "$@" >text
    run night "$table" text
}

# refused NAME START: the last run printed one line that begins so, and had status 1.
refused() {
    [ "$status" -eq 1 ] && [ "$(wc -l <out)" -eq 1 ] && grep -q "^$2" out && [ ! -s err ]
    verdict "$1" $?
}

run night "$table" "$root/examples/source-trace.words"
[ "$status" -eq 0 ] && cmp -s out "$root/tests/host/source-trace.words.out" && [ ! -s err ]
verdict 'a night is played as stored' $?
night '0 1 2'
[ "$status" -eq 0 ] && [ ! -s out ] && [ ! -s err ]
verdict 'a night without words' $?
mapfile -t many < <(yes '0 2560 6912 10496' | head -n 257)
night '0 1 2' "${many[@]:1}"
[ "$status" -eq 0 ] && [ "$(grep -c ': 1 at 50.000, 3 at 51.000, 2 at 57.000$' out)" -eq 256 ]
verdict 'a night of 256 words' $?
night '0 1 2' "${many[@]}"
refused 'a night of 257 words' 'refused 7 at 0:'
night '0 2 1' '0 1 2 3'
refused 'a night on a trace that is not joined' 'refused 6 at 0:'
run night cut "$root/examples/source-trace.words"
refused 'a night on a cut file' 'refused 1 at 26:'
night '0 1 2' '' '0 2560 6912 10496' '0 3840 8192'
trouble 'a stamp is missing' 'line 4: not a start and a stamp for each step'
for word in '0 x 6912 10496' '0 -1 6912 10496' '0 2560 6912 4294967296' '0 2560 6912, 10496'; do
    night '0 1 2' "$word"
    trouble "no word: $word" 'line 2: not a row of numbers'
done
night "$(yes 0 | head -n 600 | tr '\n' ' ')"
trouble 'a line of 600 numbers' 'line 1: too long'
run night "$table" there-is-none
trouble 'a text that is not there' there-is-none
run night "$table"
trouble 'a wrong call' 'night FILE WORDS'

# ---- A witness, move by move ----

for name in source-trace download-wide; do
    run bench "$root/examples/$name.bin"
    [ "$status" -eq 0 ] && cmp -s out "$root/tests/host/$name.bench.out" && [ ! -s err ]
    verdict "the witness of $name is played as stored" $?
done
# outputs: the responses of the last run in the order in which they were issued, without the inputs between.
outputs() {
    awk '/word/ { print $2 } $2 == "output" { print $5, $3, $1 }' out
}
# replayed: the responses that host prints for both words: step, output, due time.
replayed() {
    awk 'BEGIN { FS = "[|]" } NF == 2 && /[0-9]/ { for (i = 1; i <= 2; i++) { sub(/^ *[KM]? */, "", $i); word[i] = word[i] "\n" $i } }
         END { print "late" word[1] "\nearly" word[2] }' out | awk '{ $1 = $1; print }'
}
for name in source-trace download-wide inputs-a-b; do
    run host "$root/examples/$name.bin"
    replayed >wanted
    run bench "$root/examples/$name.bin"
    [ "$status" -eq 0 ] && outputs | cmp -s - wanted
    verdict "the player issues for $name what the replay says, at the same times" $?
done
for name in download-narrow touching map-kept; do
    run bench "$root/examples/$name.bin"
    [ "$status" -eq 0 ] && [ "$(cat out)" = 'strict: there are no two words to play' ] && [ ! -s err ]
    verdict "$name has no words to play" $?
done
run bench "$root/examples/split.bin"
[ "$status" -eq 0 ] && [ "$(cat out)" = 'split: there are no two words to play' ] && [ ! -s err ]
verdict 'a split table has no words to play' $?
run bench cut
refused 'a bench with a cut file' 'refused 1 at 26:'
run bench there-is-none
trouble 'a bench without its file' there-is-none
run bench
trouble 'a bench, wrong call' 'bench FILE'

finish
