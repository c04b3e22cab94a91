# What the test scripts share: sourced, not run. The working folder is a new one, removed at the end.

. "$(dirname "${BASH_SOURCE[0]}")/../tools/help.sh"

set -u
shopt -s lastpipe  # so that a case at the end of a pipe is counted
root=$(cd "$(dirname "${BASH_SOURCE[0]}")/.." && pwd) || exit 1
work=$(mktemp -d) || exit 1
trap 'rm -rf "$work"' EXIT
cd "$work" || exit 1

passed=0
failed=0
skipped=0

# verdict NAME STATUS: counts a case, which passed if the status is 0.
verdict() {
    if [ "$2" -eq 0 ]; then
        passed=$((passed + 1))
    else
        failed=$((failed + 1))
        echo "failed: $1"
    fi
}

# skip NAME WHY: counts a case that can't be tried here.
skip() {
    skipped=$((skipped + 1))
    echo "skipped: $1: $2"
}

# bytes HEX...: writes bytes given as hexadecimal digits.
bytes() {
    local digits="$*" escaped='' i
    digits=${digits// /}
    for ((i = 0; i < ${#digits}; i += 2)); do
        escaped+="\\x${digits:i:2}"
    done
    printf '%b' "$escaped"
}

# another_user COMMAND...: runs it as nobody where root asks, who may do anything; anybody else is one already.
another_user() {
    if [ "$(id -u)" -ne 0 ]; then "$@"; else setpriv --reuid=65534 --regid=65534 --clear-groups "$@"; fi
}

# The last line, and the status of the whole.
finish() {
    local more=
    [ "$skipped" -eq 0 ] || more=", $skipped skipped"
    echo "$passed passed, $failed failed$more"
    [ "$failed" -eq 0 ]
}
