# What the tests of the programs share. A test reads it in with the path of the program as its argument.
program=$1
runs=0
printed=$(mktemp)
trap 'rm -f "$printed"' EXIT

# check NAME EXPECTED: the bytes come on standard input, and a line feed ends what is expected
check() {
    if ! "$program" > "$printed" || ! cmp -s "$printed" <(printf '%s\n' "$2"); then
        printf '%s: printed\n%s\nand not\n%s\n' "$1" "$(cat "$printed")" "$2"
        exit 1
    fi
    runs=$((runs + 1))
}

# the bytes given in hexadecimal
bytes() {
    many 1 "$@"
}

# many COUNT BYTES: the same bytes so often
many() {
    local k once
    once=$(printf '%s' "${*:2}" | tr -d ' ' | sed 's/../\\x&/g')
    for ((k = 0; k < $1; k++)); do printf "$once"; done
}

lines() {
    printf '%s\n' "$@"
}

# Title 1, with one move right and one permit.
register='01 01 02 00 01 01 05 06'
