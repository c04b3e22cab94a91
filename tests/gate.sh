#!/usr/bin/env bash
# Tests ./test: what it takes for a failure of rt ci or of the archive, on a copy of the script with stand-ins for the toolchain
# and for the parts that come after.
#
#   tests/gate.sh
#
# The last line is 'N passed, 0 failed'.

# shellcheck source=tests/common.sh
. "$(dirname "$0")/common.sh" || exit 1

mkdir -p gate/tests stand-in kit/bin kit/toolchain
for name in judge order play sandgusset; do mkdir -p "gate/crates/$name/src"; done
cp "$root/test" gate/
cp -r "$root/tools" gate/
cp "$root/tests/x86.sh" gate/tests/
printf 'model:\nsandgusset staticlib: model\njudge: model\norder: model\nplay: model\n' >gate/crates.txt
echo 'a stand-in' >kit/KIT-ID
# The first part after the archive: it says what has come so far, and ends the call.
printf "echo 'all is well so far'\nexit 1\n" >gate/tests/gate.sh
archive=gate/crates/sandgusset/out/libsandgusset.a

# rt ci prints the file ci, with that status, and leaves a library as the toolchain does; rt lib prints the file lib, and its last
# word says what becomes of the archive. Both note where they are called, with what, and which files are there.
cat >stand-in/rt <<'RT'
#!/bin/sh
echo "$PWD $*" >>"$WORK/called"
case $* in
ci)
    find . -type f | sort >"$WORK/before"
    mkdir -p crates/model/out/rlib/model.rlib
    cat "$WORK/ci"
    exit "$CI_STATUS"
    ;;
lib)
    [ ! -f "$WORK/made" ] || { mkdir -p out && cp "$WORK/made" out/libsandgusset.a; }
    cat "$WORK/lib"
    exit "$LIB_STATUS"
    ;;
esac
exit 2
RT
# The toolchain's own command makes the archive, if it is to.
cat >kit/bin/rattle <<'RATTLE'
#!/bin/sh
echo "$PWD rattle $*" >>"$WORK/called"
[ -f "$WORK/over" ] || exit 1
cp "$WORK/over" out/libsandgusset.a
echo 'logic=proved functions=1'
RATTLE
chmod +x stand-in/rt kit/bin/rattle

CI_STATUS=0 LIB_STATUS=0 WORK=$work
export CI_STATUS LIB_STATUS WORK
# gate: calls the copy; what it printed is in out, its status in $status.
gate() {
    rm -rf called before
    RATTLE_HOME=$work/kit PATH=$work/stand-in:$PATH bash gate/test >out 2>&1
    status=$?
}
# fails NAME WORDS: the last call failed with these words, before the next part.
fails() {
    [ "$status" -ne 0 ] && grep -qF -e "$2" out && ! grep -qx 'all is well so far' out
    verdict "$1" $?
}
# goes_on NAME: the last call came to the next part.
goes_on() {
    grep -qx 'all is well so far' out
    verdict "$1" $?
}
proofs='this part failed: layout, proofs, must-fail edits, programs'
line="this part failed: its line 'rt: ok' is missing"
host='this part failed: the library for a C host'
every='every proof and must-fail edit was done in this run'
kept='done in this run: 3 of the 88 proofs (of crates and of their tests) and 0 of the 211 must-fail edits; the others are kept'
# says LINE...: what rt ci prints.
says() { printf '%s\n' "$@" >ci; }

# ---- rt ci ----

echo 'an archive' >over
ok="rt: ok; handles allowed: none; must-fail edits: 211 refused; $every"
says "$ok" '255 passed, 0 failed'
find gate -type f | sed 's/^gate/./' | sort >here
gate
goes_on 'rt ci passes'
head -n 1 called | grep -qxF "$work/gate ci"
verdict 'rt ci is called first, at the top, without names' $?
diff here before | sed -n 's/^[<>] //p' | sort | cmp -s - <(printf './target/%s.begun\n' judge order play)
verdict 'and before it nothing is made but the notes, and nothing is taken away' $?
CI_STATUS=1 gate
fails 'rt ci ends with status 1' "$proofs"
CI_STATUS=2 gate
[ "$status" -eq 2 ]
verdict 'its status is handed on' $?
for last in '254 passed, 1 failed' '' 'rt: the disk is full'; do
    says "$ok" "$last"
    gate
    fails "rt ci ends with '$last'" "$proofs"
done
says 'rt: FAILED: model' '255 passed, 0 failed'
gate
fails "the line 'rt: ok' is missing" "$line"
says 'note: rt: ok; as always' '255 passed, 0 failed'
gate
fails 'it stands within a line' "$line"
for bad in '211 refused, 1 bad' '211 refused, 12 bad' '200 refused, 3 of them only by a limit, 8 bad' '0 refused, 10 bad'; do
    for share in "$every" "$kept"; do
        says "rt: ok; handles allowed: none; must-fail edits: $bad; $share" '255 passed, 0 failed'
        gate
        fails "edits that are bad: $bad; ${share%% *}" "$line, or says that must-fail edits are bad"
    done
done
rm -r gate/crates/*/out/rlib
for good in '211 refused' '211 refused, 3 of them only by a limit' '211 refused, 0 bad'; do
    for share in "$every" "$kept"; do
        says "rt: ok; handles allowed: none; must-fail edits: $good; $share" '255 passed, 0 failed'
        gate
        goes_on "no edit is bad: $good; ${share%% *}"
    done
done

# ---- The archive ----

grep -q 'rattle build ' called && ! grep -q 'rt lib\| lib$' called && cmp -s over "$archive" && [ ! -e gate/crates/model/out/rlib ]
verdict 'it is built over what rt ci has proved, and the libraries go' $?
echo 'another archive' >made
echo 'logic=proved functions=2' >lib
mkdir -p gate/crates/judge/out/rlib
gate
goes_on 'a library was there before'
grep -qxF "$work/gate/crates/sandgusset lib" called && ! grep -q 'rattle build' called && cmp -s made "$archive"
verdict 'then rt lib builds the archive' $?
rm -r gate/crates/*/out/rlib
mkdir -p gate/.git/rt-aside
gate
! grep -q 'rattle build' called && cmp -s made "$archive"
verdict 'libraries that an rt ci put aside when it was cut off: rt lib too' $?
rm -r gate/.git gate/crates/*/out/rlib
rm over
gate
goes_on 'it is not built over what rt ci has proved'
grep -q 'rattle build' called && grep -qxF 'not built over what rt ci has proved:' out && cmp -s made "$archive"
verdict 'and is said; then rt lib builds it' $?
rm -r gate/crates/*/out/rlib
LIB_STATUS=1 gate
fails 'rt lib fails' "$host"
rm -r gate/crates/*/out/rlib
echo 'logic=not-proved functions=2' >lib
gate
fails 'the exports are not proved' "$host"
rm -r gate/crates/*/out/rlib
echo 'nothing of proofs' >lib
gate
fails 'it is not said that they are' "$host"
rm -r gate/crates/*/out/rlib
echo 'logic=proved functions=2' >lib
rm made
[ -s "$archive" ]
verdict 'an archive of an earlier call' $?
gate
fails 'is not taken for this one' "$host"

finish
