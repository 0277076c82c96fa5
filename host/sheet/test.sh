#!/usr/bin/env bash
# Runs the program `sheet` on request bytes written by hand and compares what it prints. The expected lines are worked out from
# requests W2 and W7 of document 02: row, state, permits, move rights and copies of each row that is not empty, the totals, and the
# number of spent entries.
set -euo pipefail
. "$(dirname "$0")/../programs.sh"

check 'no bytes' "$(lines 'total 0 0' 'spent 0')" < /dev/null
check 'a title here' "$(lines '1 1 1 1 0' 'total 1 0' 'spent 0')" < <(bytes "$register")
check 'a title lent' "$(lines '1 1 0 1 1' 'total 0 1' 'spent 0')" < <(bytes "$register" 03 01 07)
check 'the example of document 01' "$(lines '1 2 1 0 0' 'total 1 0' 'spent 1')" < <(
    bytes "$register" 03 01 07 03 01 08 06 01 09 00 04 07 09 06 01 09 00
)

# what stops reading: everything before it is carried out, and nothing after it
other='01 02 02 00 01 01 05 06'
lent=$(lines '1 1 0 1 1' 'total 0 1' 'spent 0')
check 'a fault first' "$(lines 'total 0 0' 'spent 0')" < <(bytes 08 "$register")
check 'a request cut short' "$lent" < <(bytes "$register" 03 01 07 03 01)
check 'a number not in its shortest form' "$lent" < <(bytes "$register" 03 01 07 03 81 00 08 "$other")
check 'no such kind' "$lent" < <(bytes "$register" 03 01 07 08 "$other")
check 'a content ID of 0' "$lent" < <(bytes "$register" 03 01 07 03 00 08 "$other")
check 'an entry number of 1000' "$lent" < <(bytes "$register" 03 01 07 03 01 E8 07 "$other")
check 'a CCI of 1' "$lent" < <(bytes "$register" 03 01 07 01 03 01 00 01 01 05 06 "$other")

# a refused call stops nothing: here a row that is taken (11), an entry in use (10), and no permit left (12)
check 'refused calls' "$(lines '1 1 0 1 1' '2 1 1 1 0' 'total 1 1' 'spent 0')" < <(
    bytes "$register" "$register" 03 01 07 03 01 07 03 01 08 "$other"
)

# the ledger has 64 rows
check 'rows 64 and 65' "$(lines '64 1 3 2 0' 'total 3 0' 'spent 0')" < <(bytes 01 40 00 00 02 03 00 00 01 41 00 00 02 03 00 00)

# a title's way, step by step: step NAME BYTES LINE..
way=''
step() {
    way="$way $2"
    check "$1" "$(lines "${@:3}")" < <(bytes "$way")
}
step 'recorded with two moves and four permits' '02 03 0A 00 00 02 04 05 06 09' '3 2 4 2 0' 'total 4 0' 'spent 0'
step 'moved out' '05 0A 09 01 02 03 04' '3 1 4 1 0' 'total 4 0' 'spent 1'
step 'lent' '03 03 0B' '3 1 3 1 1' 'total 3 1' 'spent 1'
step 'lent three times' '03 03 0C 03 03 0D' '3 1 1 1 3' 'total 1 3' 'spent 1'
step 'returned' '04 0B 07' '3 1 2 1 2' 'total 2 2' 'spent 2'
step 'a copy deleted' '07 0C 01 02 03 04' '3 1 2 1 1' 'total 2 1' 'spent 3'
step 'the last copy returned' '04 0D 07' '3 1 3 1 0' 'total 3 0' 'spent 4'
step 'lent to a spent entry' '03 03 0A' '3 1 2 1 1' 'total 2 1' 'spent 3'
step 'returned from there' '04 0A 07' '3 1 3 1 0' 'total 3 0' 'spent 4'
step 'moved in' '06 03 0E 08' '3 2 3 0 0' 'total 3 0' 'spent 4'
# The program's calls are audio calls: a delete whose f2 is the STI key 06 is answered 16, where a picture call would be done.
step 'a delete that leaves the STI key' '07 0E 01 06 03 04' '3 2 3 0 0' 'total 3 0' 'spent 4'
step 'deleted' '07 0E 01 02 03 04' '3 3 0 0 0' 'total 0 0' 'spent 5'
step 'not used again' '01 03 00 00 02 04 05 06' '3 3 0 0 0' 'total 0 0' 'spent 5'

# 15 permits are shown and not added up, in the ledger and on the card
check 'unlimited permits' "$(lines '2 1 15 15 3' '4 2 15 14 0' '5 1 14 15 0' 'total 14 3' 'spent 0')" < <(
    bytes 01 02 03 00 0F 0F 05 06 03 02 01 03 02 02 03 02 03  02 04 14 00 00 0E 0F 05 06 09  01 05 00 00 0F 0E 05 06
)

# lowest first, whatever the order of the requests
check 'rows of all states' "$(lines '9 2 1 15 0' '10 1 15 3 1' '40 1 13 0 1' '63 3 0 0 0' 'total 14 2' 'spent 1')" < <(
    bytes 02 3F 05 00 00 00 0C 05 06 09  01 28 00 00 00 0E 05 06  02 09 03 02 00 0F 01 05 06 09  01 0A 03 00 03 0F 05 06
    bytes 03 28 01  07 05 01 02 03 04  03 0A 04
)

# every row with 14 permits, and a copy of each in the entry of its number
all_rows() {
    local c
    for ((c = 1; c <= 64; c++)); do printf '01 %02X 02 00 03 0E 05 06 03 %02X %02X ' $c $c $c; done
}
all_lines() {
    local c
    for ((c = 1; c <= 64; c++)); do echo "$c 1 13 3 1"; done
    lines 'total 832 64' 'spent 0'
}
check '64 rows' "$(all_lines)" < <(bytes "$(all_rows)")

# at most 4,096 bytes are read. The title has five permits; between its requests come check-outs of a row that is empty
five='01 01 02 00 01 05 05 06'
check '4,096 bytes' "$(lines '1 1 4 1 1' 'total 4 1' 'spent 0')" < <(
    bytes "$five"; many 1360 03 02 07; bytes 03 02 E7 07 03 01 E7 07
)
check '4,099 bytes' "$(lines '1 1 4 1 1' 'total 4 1' 'spent 0')" < <(
    bytes "$five"; many 1360 03 02 07; bytes 03 02 E7 07 03 01 E7 07 03 01 08
)
check '4,097 bytes, the last request cut' "$(lines '1 1 5 1 0' 'total 5 0' 'spent 0')" < <(
    bytes "$five"; many 1362 03 02 07; bytes 03 01 07
)

echo "sheet: $runs runs"
