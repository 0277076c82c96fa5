#!/usr/bin/env bash
# Runs the program `counter` on request bytes written by hand and compares what it prints. The expected lines are worked out
# from document 01.
set -euo pipefail
. "$(dirname "$0")/../programs.sh"

check 'no bytes' "$(lines 'end 0')" < /dev/null
check 'two requests' "$(lines '1 0' '3 0' 'end 0')" < <(bytes "$register" 03 01 07)

# what stops reading: everything before it is carried out
check 'no such kind' "$(lines '1 0' 'end 3')" < <(bytes "$register" 08)
check 'a request cut short' "$(lines '1 0' 'end 1')" < <(bytes "$register" 03 01)
check 'a number not in its shortest form' "$(lines '1 0' 'end 2')" < <(bytes "$register" 03 81 00 07)
check 'a content ID of 0' "$(lines '1 0' 'end 4')" < <(bytes "$register" 03 00 80)
check 'an entry number of 1000' "$(lines '1 0' 'end 5')" < <(bytes "$register" 03 01 E8 07)
check 'a CCI of 1' "$(lines '1 0' 'end 6')" < <(bytes "$register" 01 02 01)

# the ledger has 64 rows, and its application number is the card's
check 'rows 64 and 65' "$(lines '1 0' '1 11' 'end 0')" < <(bytes 01 40 00 00 00 00 00 00 01 41 00 00 00 00 00 00)

# a title's way by every kind but register: recorded with hash 9, moved out, lent, returned, moved in, deleted. The program's calls
# are audio calls: a move out and a delete whose f2 is the STI key 06 are answered 16, where a picture call would be done.
check 'every other kind' "$(lines '2 0' '5 13' '5 16' '5 16' '5 0' '3 0' '4 16' '4 0' '6 0' '7 16' '7 0' '7 10' 'end 0')" < <(
    bytes 02 03 0A 00 00 02 02 05 06 09  05 0A 08 01 02 03 04  05 0A 09 05 02 03 04  05 0A 09 01 06 03 04
    bytes 05 0A 09 01 02 03 04  03 03 0B  04 0B 05  04 0B 07  06 03 0C 08
    bytes 07 0C 01 06 03 04  07 0C 01 02 03 04  07 0C 01 02 03 04
)

# at most 4,096 bytes are read: check-outs of three bytes each, to a row that is empty
refused() {
    local k
    for ((k = 0; k < $1; k++)); do echo '3 11'; done
}
check '4,096 bytes' "$(refused 1365; lines 'end 0')" < <(many 1364 03 01 07; bytes 03 01 E7 07)
check '4,097 bytes' "$(refused 1365; lines 'end 0')" < <(many 1364 03 01 07; bytes 03 01 E7 07 03)
check '4,098 bytes, the last request cut' "$(refused 1365; lines 'end 1')" < <(many 1366 03 01 07)

echo "counter: $runs runs"
