# What builds and runs x86-64 programs here: sourced, sets cc, runner and shared_runner, which runs programs that are
# linked with shared objects. The library's archive is for x86-64; on another machine Debian's cross compiler links it
# and Debian's emulator runs it.
case $(uname -m) in
x86_64 | amd64)
    cc=${CC:-cc}
    packages='gcc libc6-dev'
    runner=
    shared_runner=
    ;;
*)
    cc=x86_64-linux-gnu-gcc
    packages='gcc-x86-64-linux-gnu libc6-dev-amd64-cross'
    runner=qemu-x86_64
    shared_runner="$runner -L /usr/x86_64-linux-gnu"
    ;;
esac

# need COMMAND PACKAGE...: ends if the command is missing and Debian's packages may not be installed or don't bring it.
need() {
    local command=$1 try said
    shift
    if ! command -v "$command" >/dev/null && [ "$(id -u)" -eq 0 ] && command -v apt-get >/dev/null; then
        echo "installing Debian's $*" >&2
        for try in 1 2 3; do
            [ "$try" -eq 1 ] || sleep 10
            said=$({ apt-get update -qq && DEBIAN_FRONTEND=noninteractive apt-get install -y -qq "$@"; } 2>&1) && break
            echo "$said" | tail -n 3 >&2
        done
    fi
    command -v "$command" >/dev/null || { echo "$command is needed here: install Debian's $*" >&2; exit 2; }
}

# shellcheck disable=SC2086
need "$cc" $packages
[ -z "$runner" ] || need "$runner" qemu-user
