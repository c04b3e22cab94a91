# What scripts share about their help: sourced first. The comment at a script's top is its help; --help prints it.

usage() {
    sed -n '2,${/^#/!q;s/^# \{0,1\}//p}' "$0"
}

case ${1-} in -h | --help) usage && exit ;; esac
