#!/usr/bin/env bash
# Installs the kit by tools/install into a folder of its own, which is taken away again, and uses it as the README says.
#
#   tests/kit.sh
#
# What is missing is built first. On a machine that is not x86-64, Debian's Python for x86-64 is fetched into that folder; if
# it can't be had, the host in Python is run on the plain C version of the library alone, and the rest of it is skipped.
# The last line is 'N passed, 0 failed', and how many were skipped if any were.
. "$(dirname "$0")/../tools/help.sh"
. "$(dirname "$0")/common.sh"
. "$root/tests/x86.sh"
need pkg-config pkgconf

kit=$work/kit
nm=$("$cc" -print-prog-name=nm)
readelf=$("$cc" -print-prog-name=readelf)
mkdir home spare

# run WORD...: what the command printed is in out and err, its status in $status.
run() {
    "$@" >out 2>err
    status=$?
}

# answered NAME STATUS LINE...: the last run had this status and printed exactly these lines and nothing else.
answered() {
    local name=$1 wanted=$2
    shift 2
    printf '%s\n' "$@" | cmp -s - out && [ "$status" -eq "$wanted" ] && [ ! -s err ]
    verdict "$name" $?
}

# failed_with NAME STATUS WORDS: the last run printed nothing, had this status and said so in these words.
failed_with() {
    [ "$status" -eq "$2" ] && [ ! -s out ] && grep -qF -e "$3" err
    verdict "$1" $?
}

# each WORD...: does the command hold for every line of standard input, and is there one?
each() {
    local line count=0
    while read -r line; do
        count=$((count + 1))
        "$@" "$line" || { echo "not so: $* $line"; return 1; }
    done
    [ "$count" -gt 0 ]
}

# passes NAME WORD...: the command's status is 0.
passes() {
    local name=$1
    shift
    run "$@"
    [ "$status" -eq 0 ] || cat out err
    verdict "$name" "$status"
}

# ---- Installing ----

install=(env "HOME=$work/home" "TMPDIR=$work/spare" "$root/tools/install")
for script in tools/install tools/sandgusset-judge tests/kit.sh tests/host.sh tests/run tests/x86-python bench/run; do
    run "$root/$script" --help
    [ "$status" -eq 0 ] && [ ! -s err ] && grep -q "^  .*$(basename "$script")" out
    verdict "$script --help" $?
done

run "${install[@]}"
failed_with 'no PREFIX' 2 'PREFIX is missing'
run "${install[@]}" kit
failed_with 'a relative PREFIX' 2 'PREFIX must be absolute'
run "${install[@]}" "$work/../kit"
failed_with 'a PREFIX that is not plain' 2 'PREFIX must be plain'
run "${install[@]}" "$work/my kit"
failed_with 'a PREFIX with a space' 2 'PREFIX has a character'
run "${install[@]}" "$kit" "$kit"
failed_with 'two PREFIXes' 2 'one PREFIX is enough'
run "${install[@]}" "$kit" --prefix
failed_with 'an unknown option' 2 'there is no such option'
run "${install[@]}" "$kit" --destdir
failed_with '--destdir without a folder' 2 'the folder is missing'
touch file
run "${install[@]}" "$work/file/kit"
failed_with 'a PREFIX below a file' 1 "can't be written to"
[ ! -e kit ]
verdict 'a refused call installs nothing' $?

passes 'a kit is installed' "${install[@]}" "$kit"
version=$(sed -n 's/^#define SANDGUSSET_VERSION "\(.*\)"/\1/p' "$root/include/sandgusset.h")
major=${version%%.*}
sort >wanted <<FILES
./bin/sandgusset-judge
./include/sandgusset.h
./lib/libsandgusset.a
./lib/libsandgusset.so
./lib/libsandgusset.so.$major
./lib/libsandgusset.so.$version
./lib/pkgconfig/sandgusset.pc
./libexec/sandgusset/judge
./libexec/sandgusset/order
./share/man/man1/sandgusset-judge.1
./share/man/man3/sandgusset.3
FILES
# holds FOLDER: has it the files of a kit and nothing else?
holds() {
    (cd "$1" && find . ! -type d) | sort | cmp -s - wanted
}
holds kit
verdict 'all files are there, and no others' $?
named() {
    grep -q "^installed $kit/${1#./}\( -> .*\)\?\$" out
}
each named <wanted
verdict 'it says what it installs' $?
[ -z "$(find home spare -mindepth 1)" ]
verdict 'nothing is left elsewhere' $?
cmp -s "$root/include/sandgusset.h" kit/include/sandgusset.h &&
    cmp -s "$root/crates/sandgusset/out/libsandgusset.a" kit/lib/libsandgusset.a &&
    cmp -s "$root/crates/judge/out/judge" kit/libexec/sandgusset/judge && cmp -s "$root/crates/order/out/order" kit/libexec/sandgusset/order
verdict 'header, archive and programs are those of the checkout' $?
"${install[@]}" "$kit" >again && holds kit && cmp -s out again
verdict 'it can be installed again' $?

run "${install[@]}" /opt/sandgusset --destdir packed
[ "$status" -eq 0 ] && holds packed/opt/sandgusset && [ "$(ls packed packed/opt)" = $'packed:\nopt\n\npacked/opt:\nsandgusset' ] &&
    grep -qx 'prefix=/opt/sandgusset' packed/opt/sandgusset/lib/pkgconfig/sandgusset.pc && ! grep -rqF "$work" packed
verdict 'with --destdir all is below that folder and speaks of PREFIX' $?
mkdir -p older/lib
for old in libsandgusset.so.1.3.0 libsandgusset.so.1; do echo "$old" >"older/lib/$old"; done
"${install[@]}" "$work/older" >/dev/null && [ "$(cat older/lib/libsandgusset.so.1)" = libsandgusset.so.1 ] &&
    [ "$(cat older/lib/libsandgusset.so.1.3.0)" = libsandgusset.so.1.3.0 ] && [ "$(readlink older/lib/libsandgusset.so)" = "libsandgusset.so.$major" ]
verdict 'the shared object of an earlier major version stays, for the hosts that were linked with it' $?
(umask 077 && "${install[@]}" "$work/shy/kit" >/dev/null) && [ -z "$(find shy -not -perm -444 -o -type d -not -perm -555)" ]
verdict 'everyone may read what is installed, whatever the mask' $?

# ---- Versions, names, sections ----

export PKG_CONFIG_PATH=$kit/lib/pkgconfig
[ "$(pkg-config --modversion sandgusset)" = "$version" ] &&
    [ "$(sed -n 's/^## //p' "$root/CHANGELOG.md" | head -n 1)" = "$version" ] &&
    [ "$(kit/bin/sandgusset-judge --version)" = "sandgusset-judge $version" ] && ! grep -rq '@VERSION@' kit
verdict 'one version in header, pkg-config, program, man pages and CHANGELOG.md' $?

grep -o '^uint64_t sandgusset_[a-z_0-9]*' "$root/include/sandgusset.h" | cut -d ' ' -f 2 | sort >calls
"$nm" -D --defined-only kit/lib/libsandgusset.so | sed 's/.* //; s/@.*//' | sort | cmp -s - calls && [ -s calls ]
verdict 'the shared object exports the calls of the header and nothing else' $?
"$readelf" -dW kit/lib/libsandgusset.so >dynamic
grep -q "SONAME.*\[libsandgusset.so.$major\]" dynamic && grep -q 'FLAGS_1.*NOW' dynamic && ! grep -q TEXTREL dynamic &&
    [ "$(grep -c NEEDED dynamic)" -eq 1 ] && grep -q 'NEEDED.*\[libc.so.6\]' dynamic
verdict 'the shared object has its soname, needs the C library alone and is bound when it is loaded' $?
"$nm" kit/lib/libsandgusset.a >names
! grep -qE ' [BbCDdGgSs] ' names && [ "$(grep -c ' T sandgusset_' names)" -eq "$(wc -l <calls)" ] &&
    ! sed -n 's/.* U //p' names | grep -qvxE 'mem(cpy|set|move|cmp)'
verdict 'the library keeps nothing and asks for no memory: no data of its own, and nothing called but copying' $?

stack_named() {
    grep -qi "^#define SANDGUSSET_STACK_${1#sandgusset_} " "$root/include/sandgusset.h"
}
each stack_named <calls
verdict 'the header names the stack of every call' $?
page=kit/share/man/man3/sandgusset.3
grep -oE '\bsandgusset_[a-z_0-9]+\(' "$root/include/sandgusset.h" | sort -u | each grep -qF "$page" -e
verdict 'the man page has every call and helper of the header' $?
status_listed() {
    grep -q "^$1	" "$page"
}
sed -n 's|^#define SANDGUSSET_[A-Z_]* \([0-9]*\) .*/\* first.*|\1|p' "$root/include/sandgusset.h" | each status_listed
verdict 'the man page has every status' $?

# ---- The header ----

strict=(-Wall -Wextra -pedantic -Wconversion -Wsign-conversion -Wshadow -Werror)
for standard in c99 c11 gnu17; do
    passes "the header as $standard, all warnings" \
        "$cc" "-std=$standard" "${strict[@]}" -Ikit/include -static "$root/tests/header.c" -o header
done
passes 'what the header works out' $runner ./header
cxx=${CXX:-c++}
printf '#include <sandgusset.h>\nint main() { sandgusset_transition t; return !sandgusset_text(1) + %s; }\n' \
    'sandgusset_get_transition(0, 0, 0, &t)' >header.cc
for standard in c++98 c++11 c++20; do
    if command -v "$cxx" >/dev/null; then
        passes "the header as $standard, all warnings" "$cxx" "-std=$standard" "${strict[@]}" -Ikit/include -c header.cc
    else
        skip "the header as $standard" "no command '$cxx'"
    fi
done

# ---- Hosts ----

passes 'the hosts in C, by pkg-config, on the shared object' "$root/tests/host.sh" --kit "$kit"
passes 'the hosts in C, on the installed archive' "$root/tests/host.sh" "$kit/lib/libsandgusset.a"

python_lines=('turning 1 3' 'late order: 1 3 2' 'early order: 3 1 2')
# python_host NAME LIBRARY PYTHON...: judges and replays from Python.
python_host() {
    local name=$1 library=$2
    shift 2
    run "$@" "$root/examples/host.py" "$root/examples/source-trace.bin" "$library"
    answered "$name: turning" 0 "${python_lines[@]}"
    run "$@" "$root/examples/host.py" "$root/examples/download-wide.bin" "$library"
    answered "$name: turning after a first step" 0 'turning 2 3' 'late order: 1 2 3' 'early order: 1 3 2'
    run "$@" "$root/examples/host.py" "$root/examples/split.bin" "$library"
    answered "$name: split" 0 'split 1 2'
    run "$@" "$root/examples/host.py" "$root/examples/touching.bin" "$library"
    answered "$name: strict" 0 strict
    run "$@" "$root/examples/host.py" "$root/examples/map-kept.bin" "$library"
    answered "$name: strict, though like letters change places" 0 strict
    run "$@" "$root/examples/host.py" cut "$library"
    answered "$name: refused" 1 'refused 1 at 26'
}
head -c 40 "$root/examples/source-trace.bin" >cut
python=$(python3 -c 'import sys; print(sys.executable)')
if [ -n "$runner" ]; then
    "$root/tests/x86-python" "$work/python" >fetched 2>&1 && python=$work/python/python3 || python=
fi
if [ -n "$python" ]; then
    python_host 'the host in Python' "$kit/lib/libsandgusset.so" "$python"
else
    tail -n 1 fetched
    skip 'the host in Python on the proved library' "no Python for x86-64"
fi
# The plain C version has the same calls, and this machine's own compiler: so the script itself runs everywhere.
if "${CC:-cc}" -std=c99 -O2 -shared -fPIC "-I$root/include" "$root/bench/sandgusset.c" -o plain.so 2>/dev/null; then
    python_host 'the host in Python, on the plain C version' ./plain.so python3
else
    skip 'the host in Python on the plain C version' 'no C compiler for this machine'
fi
run python3 "$root/examples/host.py" cut "$work/none.so"
failed_with 'the host in Python without its library' 2 'none.so'
run python3 "$root/examples/host.py" --help
[ "$status" -eq 0 ] && grep -qF 'host.py FILE [LIBRARY]' out && [ ! -s err ]
verdict 'the host in Python, --help' $?
run python3 "$root/examples/host.py"
failed_with 'the host in Python, wrong call' 2 'host.py FILE [LIBRARY]'

# ---- The judge programs ----

judge=kit/bin/sandgusset-judge
source_lines=('turning 1 3' '1 0 5120 5120' '2 1 10240 8961' '3 2 14080 11522')
run "$judge" "$root/examples/source-trace.bin"
answered 'sandgusset-judge: turning' 1 "${source_lines[@]}"
run "$judge" - <"$root/examples/source-trace.bin"
answered 'sandgusset-judge: standard input by its name' 1 "${source_lines[@]}"
run "$judge" <"$root/examples/touching.bin"
answered 'sandgusset-judge: strict' 0 strict
run "$judge" "$root/examples/split.bin"
[ "$status" -eq 1 ] && [ "$(head -n 1 out)" = 'split 1 2' ]
verdict 'sandgusset-judge: split' $?
run "$judge" cut
answered 'sandgusset-judge: refused' 2 'refused 1 at 26'
run "$judge" --order "$root/examples/source-trace.bin"
answered 'sandgusset-judge --order: overtaken' 1 'overtaken 1 3' '1 0 5120' '2 1 8961' '3 2 11522'
run "$judge" "$root/examples/map-kept.bin"
answered 'sandgusset-judge: like letters' 0 strict
run "$judge" --order "$root/examples/map-kept.bin"
answered 'sandgusset-judge --order: like letters count' 1 'overtaken 2 3' '1 0 153600' '2 3 179200' '3 4 179713'
run "$judge" --order <"$root/examples/split.bin"
answered 'sandgusset-judge --order: in order, though split' 0 'in order'
run "$judge" --order cut
answered 'sandgusset-judge --order: refused' 2 'refused 1 at 26'
run "$judge" --order none
failed_with 'sandgusset-judge --order: no file' 3 'there is no such file'
run "$judge" "$root/examples/split.bin" --order
failed_with 'sandgusset-judge --order: the option after the file' 3 'options before it'
run "$judge" --orders cut
failed_with 'sandgusset-judge --order: misspelt' 3 'there is no such option'
run "$judge" none
failed_with 'sandgusset-judge: no file' 3 'there is no such file'
run "$judge" kit
failed_with 'sandgusset-judge: a directory' 3 'a directory is no table file'
run "$judge" <&-
failed_with 'sandgusset-judge: standard input closed' 3 'standard input is closed'
run "$judge" cut cut
failed_with 'sandgusset-judge: two files' 3 'one table file at a time'
run "$judge" --explain
failed_with 'sandgusset-judge: an unknown option' 3 'there is no such option'
cp -a kit moved && ln -s ../moved/bin/sandgusset-judge home/linked
run home/linked "$root/examples/touching.bin"
answered 'sandgusset-judge: moved, and called by a link' 0 strict
# What the program can't read is trouble: it says why, and the script its status.
for option in '' --order; do
    # shellcheck disable=SC2086
    run "$judge" $option </proc/self/mem
    [ "$status" -eq 3 ] && [ ! -s out ] && [ "$(wc -l <err)" -eq 2 ] && grep -q '^Error: ' err &&
        grep -qx 'sandgusset-judge: the program ended with status 1' err
    verdict "sandgusset-judge${option:+ $option}: a read error" $?
done
# Which way of running is taken on x86-64, whatever this machine is: stand-ins for uname, the program and the kit's loader.
# stand_in FILE LINE: a script that prints the line, but for empty input what the program prints then.
stand_in() {
    mkdir -p "${1%/*}"
    printf '#!/bin/sh\n[ "$(wc -c)" -gt 0 ] || exec echo refused 1 at 0\necho %s\n' "$2" >"$1"
    chmod +x "$1"
}
on_x86() {
    run env "PATH=$work/machine:$PATH" "RATTLE_HOME=$work/$1" home/linked "$root/examples/touching.bin"
}
mkdir machine && printf '#!/bin/sh\necho x86_64\n' >machine/uname && chmod +x machine/uname
stand_in moved/libexec/sandgusset/judge strict
stand_in rattle/toolchain/lib/ld-linux-x86-64.so.2 'turning 1 2'
on_x86 rattle
answered "sandgusset-judge: the system's loader is taken first" 0 strict
printf '#!/bin/sh\nexit 1\n' >moved/libexec/sandgusset/judge
on_x86 rattle
answered "sandgusset-judge: the kit's loader is taken if the system's does not do" 1 'turning 1 2'
on_x86 none
failed_with 'sandgusset-judge: no loader does' 3 "can't run the program"
# And on another machine: a stand-in for the emulator too, which has its word for the kit's loader and one for Debian's library.
elsewhere() {
    run env "PATH=$work/other:$PATH" "RATTLE_HOME=$work/$1" home/linked "$root/examples/touching.bin"
}
mkdir other && printf '#!/bin/sh\necho aarch64\n' >other/uname && chmod +x other/uname
cat >other/qemu-x86_64 <<'EMULATOR'
#!/bin/sh
case $* in
-L\ /usr/x86_64-linux-gnu\ */libexec/sandgusset/judge) says='turning 1 2' ;;
*/lib/ld-linux-x86-64.so.2\ --library-path\ */lib\ */libexec/sandgusset/judge) [ -x "$1" ] && says=strict || exit 1 ;;
esac
[ "$(wc -c)" -gt 0 ] || exec echo refused 1 at 0
echo "$says"
EMULATOR
chmod +x other/qemu-x86_64
elsewhere rattle
answered "sandgusset-judge: on another machine the emulator runs the kit's loader" 0 strict
elsewhere none
answered "sandgusset-judge: on another machine the emulator runs it with Debian's C library if there is no kit" 1 'turning 1 2'
printf '#!/bin/sh\nexit 127\n' >other/qemu-x86_64
elsewhere rattle
failed_with 'sandgusset-judge: on another machine, without the emulator' 3 'an emulator is needed'
rm moved/libexec/sandgusset/judge
run home/linked "$root/examples/touching.bin"
failed_with 'sandgusset-judge: without its program' 3 'the program is missing'
run home/linked --order "$root/examples/touching.bin"
answered 'sandgusset-judge --order: has a program of its own' 0 'in order'
run env -i PATH=/usr/bin:/bin "$judge" "$root/examples/touching.bin"
if [ -z "$runner" ] || PATH=/usr/bin:/bin command -v qemu-x86_64 >/dev/null; then
    answered 'sandgusset-judge: without the toolchain' 0 strict
else
    failed_with 'sandgusset-judge: without the toolchain or an emulator' 3 'an emulator is needed'
fi

# ---- What the README says ----

# The commands of its section, in a folder that looks like the checkout, with this machine's C compiler for x86-64.
mkdir desk bin
ln -s "$root/tools" "$root/examples" desk/
printf '#!/bin/sh\nexec %s "$@"\n' "$(command -v "$cc")" >bin/cc
chmod +x bin/cc
sed -n '/^## Link the library/,/^## What/s/^    //p' "$root/README.md" | sed "s|^\./|$shared_runner ./|; s|^python3|${python:-python3}|" >commands
cat "$root"/tests/host/source-trace{,.words,.bench}.out >wanted
if [ -n "$python" ]; then
    printf '%s\n' "${python_lines[@]}" >>wanted
else
    sed -i '/^python3/d' commands
fi
echo strict >>wanted
run env -u PKG_CONFIG_PATH -u LD_LIBRARY_PATH -C desk HOME="$work/home" PATH="$work/bin:$PATH" bash -e ../commands
[ "$status" -eq 0 ] && [ ! -s err ] && grep -q '^installed ' out && sed '/^installed /d' out | cmp -s - wanted
verdict "the README's commands" $?

finish
