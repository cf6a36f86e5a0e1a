# What the scripts of this folder share. They source it.
here=$(cd "$(dirname "${BASH_SOURCE[0]}")" && pwd)

# Stops with an exit number and a reason.
stop() {
    echo "$2" >&2
    exit "$1"
}

# Whether a word is a number from 1 with at most nine digits.
is_count() {
    case $1 in '' | *[!0-9]* | 0*) return 1 ;; esac
    [ ${#1} -le 9 ]
}

# Sets `program` to the proved program of a crate, or to the one that PROGRAM names.
find_program() {
    program=${PROGRAM:-$here/../crates/$1/out/$1}
    [ -x "$program" ] || stop 1 "no proved program stands: run 'rt ci $1' first"
}

# Stops where there is no python3.
need_python() {
    command -v python3 > /dev/null || stop 1 "python3 is needed"
}
