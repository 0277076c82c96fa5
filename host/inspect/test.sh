#!/usr/bin/env bash
# Runs the tools `inspect` and `buffers` and compares their exit statuses, everything that they print, every message and
# every byte that they write. Cards and ledgers are written by hand here, and what is expected is worked out from documents
# 01 and 02.
set -euo pipefail
inspect=$(realpath "$1")
buffers=$(realpath "$2")
folder=$(mktemp -d)
trap 'rm -rf "$folder"' EXIT
cd "$folder"
runs=0

# ---------------------------------------------------------------- what is compared

differs() {
    printf '%s: %s\n' "$1" "$2"
    for file in "${@:3}"; do
        echo "--- $file"
        cat -v "$file"
    done
    exit 1
}

# ran NAME STATUS PROGRAM ARGUMENTS...: leaves what was printed in the files output and messages
ran() {
    local name=$1 status=$2 answered=0
    shift 2
    "$@" > output 2> messages || answered=$?
    [ "$answered" = "$status" ] || differs "$name" "exit status $answered and not $status" output messages
    runs=$((runs + 1))
}

same() {
    cmp -s "$2" "$3" || differs "$1" 'differs' "$2" "$3"
}

# no_messages NAME: where there are none
no_messages() {
    [ ! -s messages ] || differs "$1" 'messages' messages
}

# shows NAME STATUS ARGUMENTS...: all that inspect prints is on standard input
shows() {
    cat > expected
    ran "$1" "$2" "$inspect" "${@:3}" < /dev/null
    no_messages "$1"
    same "$1" output expected
}

# ends NAME STATUS LINES...: the lines behind the last empty one, of the three files
ends() {
    lines "${@:3}" > expected
    ran "$1" "$2" "$inspect" titles rules ledger < /dev/null
    no_messages "$1"
    awk -v RS= 'END { print }' output > end
    same "$1" end expected
}

# fails NAME MESSAGES PROGRAM ARGUMENTS...: exit status 2, and nothing but messages
fails() {
    printf '%s' "$2" > expected
    ran "$1" 2 "${@:3}" < /dev/null
    same "$1" messages expected
    [ ! -s output ] || differs "$1" 'printed' output
}

# each argument as a line
lines() {
    printf '%s\n' "$@"
}

# ---------------------------------------------------------------- files by hand

# the bytes given in hexadecimal
bytes() {
    local digits="$*" escaped=
    digits=${digits// /}
    while [ -n "$digits" ]; do
        escaped+="\\x${digits:0:2}"
        digits=${digits:2}
    done
    printf "$escaped"
}

zeros() {
    head -c "$1" /dev/zero
}

# put FILE PLACE BYTES...: in the place of those that stand there
put() {
    bytes "${@:3}" | dd of="$1" bs=1 seek="$2" conv=notrunc status=none
}

# fresh_card [BYTES BYTES]: the two identifiers, else those of music; fresh_ledger R; both with application number 0
fresh_card() {
    { bytes "${1-41 31}" 00 10 00 00 3E 80 00 00 03 E7 10 01 00 00; zeros 15984; } > titles
    { bytes "${2-4D 31}" 00 11 00 00 7D 00 00 00 03 E7 20 02; zeros 31986; } > rules
}
fresh_ledger() {
    { bytes 00 00 "$(printf '%04X' "$1")"; zeros $((24 * ($1 + 1) - 4)); } > ledger
}

# title_half ENTRY TITLE CCI KEY and rule_half ENTRY TITLE TRIGGER RIGHTS PERMITS KEY: usable ones; a trigger is 0 or 8 here, and
# keys have 14 digits
title_half() {
    put titles $((16 * $1)) "0$3" "$4" 80 00 00 00 00 00 "$(printf '%04X' "$2")"
}
rule_half() {
    put rules $((32 * $1)) 00 "$6" 80 00 00 00 00 00 "$(printf '%04X' "$2")" "${3}0" "$(printf '%X%X' "$4" "$5")"
}

# full ENTRY TITLE, copy ENTRY TITLE: with any facts
full() {
    title_half "$1" "$2" 2 00000000000005
    rule_half "$1" "$2" 0 3 4 00000000000006
}
copy() {
    title_half "$1" "$2" 3 00000000000005
}

# here ROW [CCI TRIGGER RIGHTS PERMITS KEY KEY]; row ROW BYTE: another state, with nothing behind it
here() {
    put ledger $((24 * $1)) 01 "0${2-2}" "0${3-0}" "$(printf '%02X' "${4-3}" "${5-4}")" 00 00 00 "${6-00000000000005}" 00 \
        "${7-00000000000006}" 00
}
row() {
    put ledger $((24 * $1)) "$2"
}

# ---------------------------------------------------------------- buffers: the files that it writes

titles_text='refused with 8: title table length or head wrong'
rules_text='refused with 9: rule table length, head or application number wrong'
ledger_text='refused with 7: ledger length or head wrong'

# writes NAME REQUESTS LINE ARGUMENTS...: what buffers prints, and the files titles, rules and ledger in what it writes
writes() {
    rm -f t r l
    lines "$3" > expected
    bytes "$2" > requests.bin
    ran "$1" 0 "$buffers" "${@:4}" t r l < requests.bin
    no_messages "$1"
    same "$1" output expected
    same "$1" t titles
    same "$1" r rules
    same "$1" l ledger
}

# the same where requests cannot be read, from one on
stops() {
    rm -f t r l
    lines "$3" > expected
    lines "$4" > expected-messages
    bytes "$2" > requests.bin
    ran "$1" 1 "$buffers" t r l < requests.bin
    same "$1" output expected
    same "$1" messages expected-messages
    same "$1" t titles
    same "$1" r rules
    same "$1" l ledger
}

fresh_card
fresh_ledger 64
writes 'no requests' '' '0 requests, 0 of them refused'
fresh_ledger 1
writes 'one row' '' '0 requests, 0 of them refused' --rows 1
fresh_ledger 999
writes '999 rows' '' '0 requests, 0 of them refused' --rows 999
put rules 8 FF FF
put ledger 0 FF FF
writes 'an application number' '' '0 requests, 0 of them refused' --application 65535 --rows 0999
put rules 8 01 02
put ledger 0 01 02
writes 'the last of an option counts' '' '0 requests, 0 of them refused' --application 7 --rows 999 --application 258

fresh_card '50 31' '50 31'
fresh_ledger 64
writes 'a card for pictures' '' '0 requests, 0 of them refused' --picture

# document 01's example, request by request: register, check-out (entry 7), check-out, move in, check-in, move in (entry 9)
fresh_card
here 1 2 0 1 1
writes 'registered' '01 01 02 00 01 01 05 06' '1 request, 0 of them refused'
example='01 01 02 00 01 01 05 06 03 01 07 03 01 08 06 01 09 00'
here 1 2 0 1 0
copy 7 1
writes 'lent, and two refusals' "$example" '4 requests, 2 of them refused'
put titles 112 00 00 00 00 00 00 00 09 00
here 1 2 0 1 1
writes 'returned' "$example 04 07 09" '5 requests, 2 of them refused'
zeros 24 | dd of=ledger bs=1 seek=24 conv=notrunc status=none
row 1 02
title_half 9 1 2 00000000000005
rule_half 9 1 0 0 1 00000000000006
example="$example 04 07 09 06 01 09 00"
writes "document 01's example" "$example" '6 requests, 2 of them refused'

# requests that cannot be read end the history there, whatever stands behind them
then='6 requests, 2 of them refused'
end='request 7, at byte 25: cannot be read'
stops 'a request cut short' "$example 03 01" "$then" "$end, 1: request bytes end too early, or too little room for them"
stops 'not in its shortest form' "$example 03 81 00 08" "$then" "$end, 2: a number that is not in its shortest form or too large"
stops 'no such kind' "$example 08 01 02 02 00 01 01 05 06" "$then" "$end, 3: no such kind of request"
stops 'a content ID of 0' "$example 03 00 08 04 09" "$then" "$end, 4: content ID (in formatting: rows) not 1 to 999"
stops 'an entry number of 1000' "$example 03 01 E8 07" "$then" "$end, 5: entry number not 1 to 999"
stops 'a CCI of 1' "$example 01 02 01 00 01 01 05 06" "$then" "$end, 6: a fact out of range"
fresh_card
fresh_ledger 64
stops 'no request at all' '00' '0 requests, 0 of them refused' 'request 1, at byte 0: cannot be read, 3: no such kind of request'

# the calls are those of the pair: a filler f2 that is the STI key is refused in an audio call only
one='02 05 03 02 00 03 04 05 06 09 07 03 01 06 03 04'
row 5 02
full 3 5
put rules 114 00 00 00 00 00 00 00 09
writes 'a delete in an audio card' "$one" '2 requests, 1 of them refused'
fresh_card '50 31' '50 31'
put titles 48 00 00 00 00 00 00 00 01 00 00 00 00 00 00 00 05
put rules 96 00 00 00 00 00 00 00 06 00 00 00 00 00 00 00 05 00 00 00 00 00 00 00 03 00 00 00 00 00 00 00 04
row 5 03
writes 'a delete in a picture card' "$one" '2 requests, 0 of them refused' --picture

# more requests than the first room for them has: 30,000 of three bytes, to a row that is empty, and one that is done
fresh_card
fresh_ledger 64
here 1 2 0 1 1
for ((k = 0; k < 10000; k++)); do printf '\x03\x02\x07\x03\x02\x07\x03\x02\x07'; done > requests.bin
bytes 01 01 02 00 01 01 05 06 >> requests.bin
lines '30001 requests, 30000 of them refused' > expected
ran 'many requests' 0 "$buffers" t r l < requests.bin
same 'many requests' output expected
same 'many requests' l ledger

# ---------------------------------------------------------------- inspect: cards that are well

fresh_card
fresh_ledger 64
shows 'a fresh card' 0 titles rules ledger << 'END'
title table  version 10h
rule table   version 11h, application number 0
ledger       application number 0, R 64

every entry is free

every row is empty

entries  free 999, copy 0, full 0, torn 0, spent 0
rows     empty 64, here 0, away 0, gone 0, in no state 0

nothing is off
END
shows 'a fresh card alone' 0 titles rules << 'END'
title table  version 10h
rule table   version 11h, application number 0

every entry is free

entries  free 999, copy 0, full 0, torn 0, spent 0

nothing is off
END

bytes 01 01 02 00 01 01 05 06 03 01 07 > requests.bin
"$buffers" titles rules ledger < requests.bin > output
shows "document 01's example, lent" 0 titles rules ledger << 'END'
title table  version 10h
rule table   version 11h, application number 0
ledger       application number 0, R 64

entry  kind   title  CCI  trigger  rights  permits
    7  copy       1    3        -       -        -

  row  state         CCI  trigger  rights  permits
    1  here            2        0       1        0

entries  free 998, copy 1, full 0, torn 0, spent 0
rows     empty 63, here 1, away 0, gone 0, in no state 0

nothing is off
END
bytes "$example" > requests.bin
"$buffers" titles rules ledger < requests.bin > output
cat > expected-example << 'END'
title table  version 10h
rule table   version 11h, application number 0
ledger       application number 0, R 64

entry  kind   title  CCI  trigger  rights  permits
    7  spent      1    -        -       -        -
    9  full       1    2        0       0        1

  row  state         CCI  trigger  rights  permits
    1  away            -        -       -        -

entries  free 997, copy 0, full 1, torn 0, spent 1
rows     empty 63, here 0, away 1, gone 0, in no state 0

nothing is off
END
shows "document 01's example" 0 titles rules ledger < expected-example
shows 'an option behind the files' 0 titles rules ledger --keys << 'END'
title table  version 10h
rule table   version 11h, application number 0
ledger       application number 0, R 64

entry  kind   title  CCI  trigger  rights  permits       title key         STI key
    7  spent      1    -        -       -        -               -               -
    9  full       1    2        0       0        1  00000000000005  00000000000006

  row  state         CCI  trigger  rights  permits       title key         STI key
    1  away            -        -       -        -               -               -

entries  free 997, copy 0, full 1, torn 0, spent 1
rows     empty 63, here 0, away 1, gone 0, in no state 0

nothing is off
END

# "version 11h or more (later ones are no error)"
for version in 12 13 80 FF; do
    put rules 3 $version
    sed "s/11h/${version}h/" expected-example > expected-version
    shows "a rule table of version ${version}h" 0 titles rules ledger < expected-version
done
put rules 3 11
put titles 3 09
sed 's/10h/09h/' expected-example > expected-version
shows 'a title table of version 09h' 0 titles rules ledger < expected-version
put titles 3 10

# what is ignored in heads
put titles 2 FF
put titles 14 FF FF
put rules 2 FF
put rules 14 FF FF FF FF FF FF FF FF FF FF FF FF FF FF FF FF FF FF
put ledger 4 FF FF FF FF FF FF FF FF FF FF FF FF FF FF FF FF FF FF FF FF
shows 'ignored bytes of heads' 0 titles rules ledger < expected-example

# every kind, every state but the damaged one, and facts that are all different; the first and the last entry and row
fresh_card
fresh_ledger 6
put rules 8 12 34
put ledger 0 12 34
here 1 2 0 14 13 11223344556677 8899AABBCCDDEE
here 3 3 1 15 12 FEDCBA98765432 0123456789ABCD
row 2 02
row 4 03
row 6 02
title_half 1 1 3 11223344556677
title_half 999 3 3 FEDCBA98765432
title_half 998 6 0 A1A2A3A4A5A6A7
rule_half 998 6 8 9 7 B1B2B3B4B5B6B7
title_half 10 2 3 C1C2C3C4C5C6C7
rule_half 10 2 0 15 0 D1D2D3D4D5D6D7
put titles 320 00 11 22 33 44 55 66 77 00 00 00 00 00 00 03 E7
shows 'all kinds' 0 titles rules ledger << 'END'
title table  version 10h
rule table   version 11h, application number 4660
ledger       application number 4660, R 6

entry  kind   title  CCI  trigger  rights  permits
    1  copy       1    3        -       -        -
   10  full       2    3        0      15        0
   20  spent    999    -        -       -        -
  998  full       6    0        1       9        7
  999  copy       3    3        -       -        -

  row  state         CCI  trigger  rights  permits
    1  here            2        0      14       13
    2  away            -        -       -        -
    3  here            3        1      15       12
    4  gone            -        -       -        -
    6  away            -        -       -        -

entries  free 994, copy 2, full 2, torn 0, spent 1
rows     empty 1, here 2, away 2, gone 1, in no state 0

nothing is off
END
shows 'all kinds with their keys' 0 --keys titles rules ledger << 'END'
title table  version 10h
rule table   version 11h, application number 4660
ledger       application number 4660, R 6

entry  kind   title  CCI  trigger  rights  permits       title key         STI key
    1  copy       1    3        -       -        -  11223344556677               -
   10  full       2    3        0      15        0  C1C2C3C4C5C6C7  D1D2D3D4D5D6D7
   20  spent    999    -        -       -        -               -               -
  998  full       6    0        1       9        7  A1A2A3A4A5A6A7  B1B2B3B4B5B6B7
  999  copy       3    3        -       -        -  FEDCBA98765432               -

  row  state         CCI  trigger  rights  permits       title key         STI key
    1  here            2        0      14       13  11223344556677  8899AABBCCDDEE
    2  away            -        -       -        -               -               -
    3  here            3        1      15       12  FEDCBA98765432  0123456789ABCD
    4  gone            -        -       -        -               -               -
    6  away            -        -       -        -               -               -

entries  free 994, copy 2, full 2, torn 0, spent 1
rows     empty 1, here 2, away 2, gone 1, in no state 0

nothing is off
END
shows 'all kinds without a ledger' 0 titles rules << 'END'
title table  version 10h
rule table   version 11h, application number 4660

entry  kind   title  CCI  trigger  rights  permits
    1  copy       1    3        -       -        -
   10  full       2    3        0      15        0
   20  spent    999    -        -       -        -
  998  full       6    0        1       9        7
  999  copy       3    3        -       -        -

entries  free 994, copy 2, full 2, torn 0, spent 1

nothing is off
END

# 999 entries and 999 rows in use: entry j has title 1000 - j, as the holder where that is even, and else as a copy
crowd() {
    local j c
    { bytes 41 31 00 10 00 00 3E 80 00 00 03 E7 10 01 00 00
    for ((j = 1; j <= 999; j++)); do
        printf -v c '%04X' $((1000 - j))
        printf "\\x00\\x00\\x00\\x00\\x00\\x00\\x00\\x05\\x80\\x00\\x00\\x00\\x00\\x00\\x${c:0:2}\\x${c:2}"
    done; } > titles
    { bytes 4D 31 00 11 00 00 7D 00 00 00 03 E7 20 02; zeros 18
    for ((j = 1; j <= 999; j++)); do
        printf -v c '%04X' $((1000 - j))
        if ((j % 2 == 0)); then
            printf "\\x00\\x00\\x00\\x00\\x00\\x00\\x00\\x06\\x80\\x00\\x00\\x00\\x00\\x00\\x${c:0:2}\\x${c:2}\\x80\\x12"
            zeros 14
        else
            zeros 32
        fi
    done; } > rules
    { bytes 00 00 03 E7; zeros 20
    for ((c = 1; c <= 999; c++)); do
        if ((c % 2 == 0)); then bytes 02; zeros 23; else bytes 01 00 00 0F 0E; zeros 19; fi
    done; } > ledger
}
crowd_lines() {
    local j c
    lines 'title table  version 10h' 'rule table   version 11h, application number 0' 'ledger       application number 0, R 999' ''
    lines 'entry  kind   title  CCI  trigger  rights  permits'
    for ((j = 1; j <= 999; j++)); do
        if ((j % 2 == 0)); then
            printf '%5d  full   %5d    0        1       1        2\n' $j $((1000 - j))
        else
            printf '%5d  copy   %5d    0        -       -        -\n' $j $((1000 - j))
        fi
    done
    lines '' '  row  state         CCI  trigger  rights  permits'
    for ((c = 1; c <= 999; c++)); do
        if ((c % 2 == 0)); then
            printf '%5d  away            -        -       -        -\n' $c
        else
            printf '%5d  here            0        0      15       14\n' $c
        fi
    done
    lines '' 'entries  free 0, copy 500, full 499, torn 0, spent 0' \
        'rows     empty 0, here 500, away 499, gone 0, in no state 0' '' 'nothing is off'
}
crowd
shows '999 entries in use' 0 titles rules ledger < <(crowd_lines)

# ---------------------------------------------------------------- inspect: pairs

of_pictures='it is of a card for pictures: see --picture'
of_music='it is of a card for music: leave out --picture'
fresh_card '50 31' '50 31'
fresh_ledger 1
row 1 02
full 2 1
cat > expected-picture << 'END'
title table  version 10h
rule table   version 11h, application number 0
ledger       application number 0, R 1

entry  kind   title  CCI  trigger  rights  permits
    2  full       1    2        0       3        4

  row  state         CCI  trigger  rights  permits
    1  away            -        -       -        -

entries  free 998, copy 0, full 1, torn 0, spent 0
rows     empty 0, here 0, away 1, gone 0, in no state 0

nothing is off
END
shows 'a card for pictures' 0 --picture titles rules ledger < expected-picture
shows 'a card for pictures, not said' 1 titles rules ledger << END
title table  $titles_text
             byte 0, identifier: found 50h, not 41h
             $of_pictures
rule table   $rules_text
             byte 0, identifier: found 50h, not 4Dh
             $of_pictures
ledger       application number 0, R 1

entries cannot be told, since a table is refused

  row  state         CCI  trigger  rights  permits
    1  away            -        -       -        -

rows     empty 0, here 0, away 1, gone 0, in no state 0

off: the title table is refused with 8
off: the rule table is refused with 9
off: card and ledger cannot be compared
END
put ledger 0 00 09
shows 'a card for pictures, of another application' 1 --picture titles rules ledger << END
title table  version 10h
rule table   version 11h, application number 0
             $rules_text
             byte 9, application number: found 00h, not 09h
ledger       application number 9, R 1

entry  kind   title  CCI  trigger  rights  permits
    2  full       1    2        0       3        4

  row  state         CCI  trigger  rights  permits
    1  away            -        -       -        -

entries  free 998, copy 0, full 1, torn 0, spent 0
rows     empty 0, here 0, away 1, gone 0, in no state 0

off: the rule table beside this ledger is refused with 9
off: card and ledger cannot be compared
END
fresh_card
shows 'a card for music, said to be for pictures' 1 titles rules --picture << END
title table  $titles_text
             byte 0, identifier: found 41h, not 50h
             $of_music
rule table   $rules_text
             byte 0, identifier: found 4Dh, not 50h
             $of_music

entries cannot be told, since a table is refused

off: the title table is refused with 8
off: the rule table is refused with 9
END

# identifiers that are of neither pair, and each of the other kind of table
neither() {
    shows "identifiers $1" 1 titles rules "${@:4}" << END
title table  $titles_text
             $2
rule table   $rules_text
             $3

entries cannot be told, since a table is refused

off: the title table is refused with 8
off: the rule table is refused with 9
END
}
fresh_card '50 32' '50 30'
neither 'P2 and P0' 'byte 0, identifier: found 50h, not 41h' 'byte 0, identifier: found 50h, not 4Dh'
neither 'P2 and P0, of pictures' 'byte 1, identifier: found 32h, not 31h' 'byte 1, identifier: found 30h, not 31h' --picture
fresh_card '41 32' '4D 00'
neither 'A2 and M0, of pictures' 'byte 0, identifier: found 41h, not 50h' 'byte 0, identifier: found 4Dh, not 50h' --picture
fresh_card '4D 31' '41 31'
neither 'M1 and A1' 'byte 0, identifier: found 4Dh, not 41h' 'byte 0, identifier: found 41h, not 4Dh'
neither 'M1 and A1, of pictures' 'byte 0, identifier: found 4Dh, not 50h' 'byte 0, identifier: found 41h, not 50h' --picture

# ---------------------------------------------------------------- inspect: heads and lengths

# a card with a torn entry, and a copy and a full entry that do not fit to their rows, which is not told where a head is refused
whole() {
    fresh_card
    fresh_ledger 300
    copy 7 299
    rule_half 8 1 0 3 4 00000000000006
    full 9 300
    here 300
}
entries_shown=$(cat << 'END'

entry  kind   title  CCI  trigger  rights  permits
    7  copy     299    3        -       -        -
    8  torn       -    -        -       -        -
    9  full     300    2        0       3        4
END
)
rows_shown=$(cat << 'END'

  row  state         CCI  trigger  rights  permits
  300  here            2        0       3        4
END
)
entry_counts='entries  free 996, copy 1, full 1, torn 1, spent 0'
row_counts='rows     empty 299, here 1, away 0, gone 0, in no state 0'
titles_head='title table  version 10h'
rules_head='rule table   version 11h, application number 0'
ledger_head='ledger       application number 0, R 300'
not_compared='off: card and ledger cannot be compared'

titles_refused() {
    shows "title table: $1" 1 titles rules ledger < <(
        lines "title table  $titles_text" "             $1" "$rules_head" "$ledger_head" '' \
            'entries cannot be told, since a table is refused' "$rows_shown" '' "$row_counts" '' \
            'off: the title table is refused with 8' "$not_compared"
    )
}
rules_refused() {
    shows "rule table: $1" 1 titles rules ledger < <(
        lines "$titles_head" "rule table   $rules_text" "             $1" "$ledger_head" '' \
            'entries cannot be told, since a table is refused' "$rows_shown" '' "$row_counts" '' \
            'off: the rule table is refused with 9' "$not_compared"
    )
}
ledger_refused() {
    shows "ledger: $1" 1 titles rules ledger < <(
        lines "$titles_head" "$rules_head" "ledger       $ledger_text" "             $1" "$entries_shown" '' \
            'rows cannot be told, since the ledger is refused' '' "$entry_counts" '' \
            'off: the ledger is refused with 7' "$not_compared" 'off: entry 8 is torn'
    )
}
# application_refused FOUND LEDGER'S LINE
application_refused() {
    shows "application: $3" 1 titles rules ledger < <(
        lines "$titles_head" "rule table   version 11h, application number $1" "             $rules_text" "             $3" \
            "ledger       application number $2, R 300" "$entries_shown" "$rows_shown" '' "$entry_counts" "$row_counts" '' \
            'off: the rule table beside this ledger is refused with 9' "$not_compared" 'off: entry 8 is torn'
    )
}

# at_fault FILE PLACE BYTE LINE: one byte of a head
at_fault() {
    whole
    put "$1" "$2" "$3"
    "$1_refused" "byte $2, $4"
}
at_fault titles 0 4D 'identifier: found 4Dh, not 41h'
at_fault titles 0 50 "identifier: found 50h, not 41h"$'\n'"             $of_pictures"
at_fault titles 1 32 'identifier: found 32h, not 31h'
for version in 00 08 0A 0F 11 90 FF; do
    at_fault titles 3 $version "version: found ${version}h, not 09h or 10h"
done
at_fault titles 4 01 'size: found 01h, not 00h'
at_fault titles 5 01 'size: found 01h, not 00h'
at_fault titles 6 3F 'size: found 3Fh, not 3Eh'
at_fault titles 7 81 'size: found 81h, not 80h'
at_fault titles 8 01 'zero: found 01h, not 00h'
at_fault titles 9 80 'zero: found 80h, not 00h'
at_fault titles 10 02 'count: found 02h, not 03h'
at_fault titles 11 E8 'count: found E8h, not E7h'
at_fault titles 12 20 'length of an entry: found 20h, not 10h'
at_fault titles 13 02 'mark: found 02h, not 01h'

at_fault rules 0 41 'identifier: found 41h, not 4Dh'
at_fault rules 0 50 "identifier: found 50h, not 4Dh"$'\n'"             $of_pictures"
at_fault rules 1 30 'identifier: found 30h, not 31h'
for version in 00 09 10; do
    at_fault rules 3 $version "version: found ${version}h, not 11h or more"
done
at_fault rules 4 80 'size: found 80h, not 00h'
at_fault rules 5 01 'size: found 01h, not 00h'
at_fault rules 6 7C 'size: found 7Ch, not 7Dh'
at_fault rules 7 01 'size: found 01h, not 00h'
at_fault rules 10 00 'count: found 00h, not 03h'
at_fault rules 11 E6 'count: found E6h, not E7h'
at_fault rules 12 10 'length of an entry: found 10h, not 20h'
at_fault rules 13 01 'mark: found 01h, not 02h'

at_fault ledger 2 04 'R: found 04h, not 00h to 03h'
at_fault ledger 2 FF 'R: found FFh, not 00h to 03h'
whole
put ledger 2 03 E8
ledger_refused 'byte 3, R: found E8h, not 00h to E7h'
whole
put ledger 2 00 00
ledger_refused 'byte 3, R: found 00h, not 01h or more'

# of several bytes at fault, the first
whole
put titles 1 30 00 0A 01
titles_refused 'byte 1, identifier: found 30h, not 31h'
whole
put rules 3 10
put rules 12 00 00
rules_refused 'byte 3, version: found 10h, not 11h or more'

# the application number of the card is the ledger's
whole
put rules 8 00 07
application_refused 7 0 'byte 9, application number: found 07h, not 00h'
put rules 8 01 07
application_refused 263 0 'byte 8, application number: found 01h, not 00h'
whole
put ledger 0 12 34
application_refused 0 4660 'byte 8, application number: found 00h, not 12h'
put rules 8 12 00
application_refused 4608 4660 'byte 9, application number: found 00h, not 34h'

# resized FILE LENGTH: cut, or longer by zeros
resized() {
    whole
    truncate -s "$2" "$1"
}
for length in 0 2 15 15999 16001 32000 65535; do
    resized titles $length
    titles_refused "found $length bytes, not 16000"
done
for length in 0 2 14 31999 32001 16000 65535; do
    resized rules $length
    rules_refused "found $length bytes, not 32000"
done
for length in 0 2 3 4 24 47; do
    resized ledger $length
    ledger_refused "found $length bytes, not 48 or more"
done
for length in 48 7200 7223 7225 7248 65535; do
    resized ledger $length
    ledger_refused "found $length bytes, not 7224, by the R in its head"
done

# no more is read than tells that a file is too long, which may have no end
for length in 65536 65537 200000; do
    resized titles $length
    titles_refused 'found 65536 bytes or more, not 16000'
    resized rules $length
    rules_refused 'found 65536 bytes or more, not 32000'
    resized ledger $length
    ledger_refused 'found 65536 bytes or more, not 7224, by the R in its head'
done
whole
shows 'tables and a ledger without an end' 1 /dev/zero /dev/zero <(cat ledger /dev/zero) << END
title table  $titles_text
             found 65536 bytes or more, not 16000
rule table   $rules_text
             found 65536 bytes or more, not 32000
ledger       $ledger_text
             found 65536 bytes or more, not 7224, by the R in its head

entries cannot be told, since a table is refused

rows cannot be told, since the ledger is refused

off: the title table is refused with 8
off: the rule table is refused with 9
off: the ledger is refused with 7
off: card and ledger cannot be compared
END

resized titles 1
titles_refused 'found 1 byte, not 16000'
resized ledger 1
ledger_refused 'found 1 byte, not 48 or more'
whole
put ledger 2 01 2D
ledger_refused 'found 7224 bytes, not 7248, by the R in its head'
whole
put ledger 2 03 E7
ledger_refused 'found 7224 bytes, not 24000, by the R in its head'
whole
put ledger 2 00 01
ledger_refused 'found 7224 bytes, not 48, by the R in its head'

# all three, and a card without a ledger
: > empty
shows 'three empty files' 1 empty empty empty << END
title table  $titles_text
             found 0 bytes, not 16000
rule table   $rules_text
             found 0 bytes, not 32000
ledger       $ledger_text
             found 0 bytes, not 48 or more

entries cannot be told, since a table is refused

rows cannot be told, since the ledger is refused

off: the title table is refused with 8
off: the rule table is refused with 9
off: the ledger is refused with 7
off: card and ledger cannot be compared
END
whole
shows 'a rule table as the title table' 1 rules titles << END
title table  $titles_text
             found 32000 bytes, not 16000
rule table   $rules_text
             found 16000 bytes, not 32000

entries cannot be told, since a table is refused

off: the title table is refused with 8
off: the rule table is refused with 9
END

# another application number is told also beside a title table that is refused
put titles 0 00
put rules 8 00 07
shows 'a title table refused, and another application' 1 titles rules ledger << END
title table  $titles_text
             byte 0, identifier: found 00h, not 41h
rule table   version 11h, application number 7
             $rules_text
             byte 9, application number: found 07h, not 00h
$ledger_head

entries cannot be told, since a table is refused
$rows_shown

$row_counts

off: the title table is refused with 8
off: the rule table beside this ledger is refused with 9
off: card and ledger cannot be compared
END

# ---------------------------------------------------------------- inspect: what does not fit together

# fresh: a card and a ledger of ten rows
fresh() {
    fresh_card
    fresh_ledger 10
}

# the kinds of torn entries; and entries that look like them and are not: flag 1 with ID 0, and IDs above 999 beside flag 0
fresh
rule_half 1 5 0 3 4 00000000000006
title_half 2 4 2 00000000000005
rule_half 2 5 0 3 4 00000000000006
title_half 3 4 1 00000000000005
title_half 4 1000 2 00000000000005
title_half 5 1023 2 00000000000005
rule_half 5 1023 0 3 4 00000000000006
title_half 6 0 2 00000000000005
put titles 112 02 00 00 00 00 00 00 05 00 00 00 00 00 00 03 E8
shows 'torn entries' 1 titles rules ledger << 'END'
title table  version 10h
rule table   version 11h, application number 0
ledger       application number 0, R 10

entry  kind   title  CCI  trigger  rights  permits
    1  torn       -    -        -       -        -
    2  torn       -    -        -       -        -
    3  torn       -    -        -       -        -
    4  torn       -    -        -       -        -
    5  torn       -    -        -       -        -

every row is empty

entries  free 994, copy 0, full 0, torn 5, spent 0
rows     empty 10, here 0, away 0, gone 0, in no state 0

off: entry 1 is torn
off: entry 2 is torn
off: entry 3 is torn
off: entry 4 is torn
off: entry 5 is torn
END
fresh
rule_half 999 5 0 3 4 00000000000006
shows 'a torn entry without a ledger' 1 --keys titles rules << 'END'
title table  version 10h
rule table   version 11h, application number 0

entry  kind   title  CCI  trigger  rights  permits       title key         STI key
  999  torn       -    -        -       -        -               -               -

entries  free 998, copy 0, full 0, torn 1, spent 0

off: entry 999 is torn
END

# rows in no state: a byte 0 above 3, and each fact out of range
fresh
row 1 04
row 2 FF
put ledger 72 01 01
put ledger 96 01 04
put ledger 120 01 00 02
put ledger 144 01 00 00 10
put ledger 168 01 00 00 00 10
shows 'rows in no state' 1 titles rules ledger --keys << 'END'
title table  version 10h
rule table   version 11h, application number 0
ledger       application number 0, R 10

every entry is free

  row  state         CCI  trigger  rights  permits       title key         STI key
    1  in no state     -        -       -        -               -               -
    2  in no state     -        -       -        -               -               -
    3  in no state     -        -       -        -               -               -
    4  in no state     -        -       -        -               -               -
    5  in no state     -        -       -        -               -               -
    6  in no state     -        -       -        -               -               -
    7  in no state     -        -       -        -               -               -

entries  free 999, copy 0, full 0, torn 0, spent 0
rows     empty 3, here 0, away 0, gone 0, in no state 7

off: row 1 is in no state
off: row 2 is in no state
off: row 3 is in no state
off: row 4 is in no state
off: row 5 is in no state
off: row 6 is in no state
off: row 7 is in no state
END
put rules 3 10
ends 'a row in no state beside a table that is refused' 1 'off: the rule table is refused with 9' "$not_compared" \
    'off: row 1 is in no state' 'off: row 2 is in no state' 'off: row 3 is in no state' 'off: row 4 is in no state' \
    'off: row 5 is in no state' 'off: row 6 is in no state' 'off: row 7 is in no state'

# beside such a row, what the card has of its title is told, and nothing else
fresh
row 3 FF
put titles 160 00 00 00 00 00 00 00 00 00 00 00 00 00 00 00 03
ends 'in no state, and a spent entry' 1 'off: row 3 is in no state'
full 7 3
full 8 3
ends 'in no state, and two full entries' 1 'off: entry 7 is full with title 3, whose row is in no state, not away' \
    'off: entry 8 is full with title 3, whose row is in no state, not away' 'off: row 3 is in no state' \
    'off: title 3 has 2 holders on this card and in the ledger, not 1: row in no state, full entries 2, copies 0'

# a full entry, with its row in each state, and above R
fresh
full 7 10
ends 'full, its row empty' 1 'off: entry 7 is full with title 10, whose row is empty, not away'
here 10
ends 'full, its row here' 1 'off: entry 7 is full with title 10, whose row is here, not away' \
    'off: title 10 has 2 holders on this card and in the ledger, not 1: row here, full entries 1, copies 0'
row 10 02
ends 'full, its row away' 0 'nothing is off'
row 10 03
ends 'full, its row gone' 1 'off: entry 7 is full with title 10, whose row is gone, not away' \
    'off: title 10 has 1 holder on this card and in the ledger, not 0: row gone, full entries 1, copies 0'
row 10 04
ends 'full, its row in no state' 1 'off: entry 7 is full with title 10, whose row is in no state, not away' \
    'off: row 10 is in no state'
fresh
full 7 11
ends 'full, its row above R' 1 'off: entry 7 is full with title 11, which is above R, 10'
fresh
full 999 999
ends 'full, the last of all' 1 'off: entry 999 is full with title 999, which is above R, 10'

# a copy, the same way
fresh
copy 7 10
ends 'a copy, its row empty' 1 'off: entry 7 is a copy of title 10, whose row is empty, not here' \
    'off: title 10 has 0 holders on this card and in the ledger, not 1: row empty, full entries 0, copies 1'
here 10
ends 'a copy, its row here' 0 'nothing is off'
row 10 02
ends 'a copy, its row away' 1 'off: entry 7 is a copy of title 10, whose row is away, not here' \
    'off: title 10 has 0 holders on this card and in the ledger, not 1: row away, full entries 0, copies 1; another card may have it'
row 10 03
ends 'a copy, its row gone' 1 'off: entry 7 is a copy of title 10, whose row is gone, not here'
row 10 04
ends 'a copy, its row in no state' 1 'off: entry 7 is a copy of title 10, whose row is in no state, not here' \
    'off: row 10 is in no state' \
    'off: title 10 has 0 holders on this card and in the ledger, not 1: row in no state, full entries 0, copies 1'
fresh
copy 7 11
ends 'a copy, its row above R' 1 'off: entry 7 is a copy of title 11, which is above R, 10'

# holders: none of a title that is away, as after a power failure between two tables; several on the card; and beside a copy
fresh
row 3 02
ends 'away, and nowhere' 1 \
    'off: title 3 has 0 holders on this card and in the ledger, not 1: row away, full entries 0, copies 0; another card may have it'
put titles 160 00 00 00 00 00 00 00 00 00 00 00 00 00 00 00 03
ends 'away, and a spent entry' 1 \
    'off: title 3 has 0 holders on this card and in the ledger, not 1: row away, full entries 0, copies 0; another card may have it'
full 7 3
full 8 3
full 9 3
ends 'three full entries' 1 'off: title 3 has 3 holders on this card and in the ledger, not 1: row away, full entries 3, copies 0'
here 3
ends 'three full entries and the row' 1 'off: entry 7 is full with title 3, whose row is here, not away' \
    'off: entry 8 is full with title 3, whose row is here, not away' \
    'off: entry 9 is full with title 3, whose row is here, not away' \
    'off: title 3 has 4 holders on this card and in the ledger, not 1: row here, full entries 3, copies 0'
fresh
row 3 02
full 7 3
copy 8 3
copy 9 3
ends 'full, and two copies' 1 'off: entry 8 is a copy of title 3, whose row is away, not here' \
    'off: entry 9 is a copy of title 3, whose row is away, not here'
row 3 03
put titles 120 00
put rules 232 00
ends 'gone, and two copies' 1 'off: entry 8 is a copy of title 3, whose row is gone, not here' \
    'off: entry 9 is a copy of title 3, whose row is gone, not here'
fresh
row 3 03
put titles 160 00 00 00 00 00 00 00 00 00 00 00 00 00 00 00 03
ends 'gone, and a spent entry' 0 'nothing is off'

# reserved bits, and the zero bytes of rows, count for nothing
fresh
put titles 112 FE 00 00 00 00 00 00 05 FF FF FF FF FF FF FC 03
put rules 224 FF 00 00 00 00 00 00 06 FF FF FF FF FF FF FC 03 7F 34 FF FF FF FF FF FF FF FF FF FF FF FF FF FF
put ledger 72 02 FF FF FF FF FF FF FF FF FF FF FF FF FF FF FF FF FF FF FF FF FF FF FF
put ledger 120 01 02 00 03 04 FF FF FF 00 00 00 00 00 00 05 FF 00 00 00 00 00 00 06 FF
shows 'reserved bits' 0 titles rules ledger --keys << 'END'
title table  version 10h
rule table   version 11h, application number 0
ledger       application number 0, R 10

entry  kind   title  CCI  trigger  rights  permits       title key         STI key
    7  full       3    2        0       3        4  00000000000005  00000000000006

  row  state         CCI  trigger  rights  permits       title key         STI key
    3  away            -        -       -        -               -               -
    5  here            2        0       3        4  00000000000005  00000000000006

entries  free 998, copy 0, full 1, torn 0, spent 0
rows     empty 8, here 1, away 1, gone 0, in no state 0

nothing is off
END

# everything at once, in its order
fresh
put titles 3 09
put rules 3 12
here 1
row 2 02
row 4 03
row 5 04
copy 3 4
full 20 1
rule_half 21 2 0 3 4 00000000000006
copy 22 11
full 23 6
shows 'all sorts' 1 titles rules ledger << 'END'
title table  version 09h
rule table   version 12h, application number 0
ledger       application number 0, R 10

entry  kind   title  CCI  trigger  rights  permits
    3  copy       4    3        -       -        -
   20  full       1    2        0       3        4
   21  torn       -    -        -       -        -
   22  copy      11    3        -       -        -
   23  full       6    2        0       3        4

  row  state         CCI  trigger  rights  permits
    1  here            2        0       3        4
    2  away            -        -       -        -
    4  gone            -        -       -        -
    5  in no state     -        -       -        -

entries  free 994, copy 2, full 2, torn 1, spent 0
rows     empty 6, here 1, away 1, gone 1, in no state 1

off: entry 3 is a copy of title 4, whose row is gone, not here
off: entry 20 is full with title 1, whose row is here, not away
off: entry 21 is torn
off: entry 22 is a copy of title 11, which is above R, 10
off: entry 23 is full with title 6, whose row is empty, not away
off: title 1 has 2 holders on this card and in the ledger, not 1: row here, full entries 1, copies 0
off: title 2 has 0 holders on this card and in the ledger, not 1: row away, full entries 0, copies 0; another card may have it
off: row 5 is in no state
END

# ---------------------------------------------------------------- files and commands

fresh
none='none: No such file or directory'$'\n'
is_folder='folder: Is a directory'$'\n'
mkdir folder
fails 'no title table' "$none" "$inspect" none rules ledger
fails 'no rule table' "$none" "$inspect" titles none
fails 'no ledger' "$none" "$inspect" titles rules none
fails 'no name of a title table' '"": No such file or directory'$'\n' "$inspect" '' rules
fails 'no name of a ledger' '"": No such file or directory'$'\n' "$inspect" titles rules ''
fails 'a folder for a title table' "$is_folder" "$inspect" folder rules
fails 'a folder for a rule table' "$is_folder" "$inspect" titles folder ledger
fails 'a folder for a ledger' "$is_folder" "$inspect" titles rules folder
cp titles locked
chmod 000 locked
if [ ! -r locked ]; then
    fails 'a file that may not be read' 'locked: Permission denied'$'\n' "$inspect" locked rules
    fails 'a file that may not be written' 'locked: Permission denied'$'\n' "$buffers" t locked l
fi

fails 'buffers, no such folder for titles' 'none/t: No such file or directory'$'\n' "$buffers" none/t r l
fails 'buffers, no such folder for rules' 'none/r: No such file or directory'$'\n' "$buffers" t none/r l
fails 'buffers, no such folder for a ledger' 'none/l: No such file or directory'$'\n' "$buffers" t r none/l
fails 'buffers, no name of a rule table' '"": No such file or directory'$'\n' "$buffers" t '' l
fails 'buffers, a folder for a table' "$is_folder" "$buffers" t folder l
fails 'buffers, no room for a table' '/dev/full: No space left on device'$'\n' "$buffers" /dev/full r l
fails 'buffers, no room for a ledger' '/dev/full: No space left on device'$'\n' "$buffers" --rows 1 t r /dev/full
lines 'standard input: Is a directory' > expected
rm -f t r l
ran 'buffers, a folder on standard input' 2 "$buffers" t r l < folder
same 'buffers, a folder on standard input' messages expected
[ ! -s output ] && [ ! -e t ] || differs 'buffers, a folder on standard input' 'printed or wrote' output

# full_output NAME PROGRAM ARGUMENTS...: where what is printed cannot be written
full_output() {
    local name=$1 status=0
    shift
    "$@" > /dev/full 2> messages < /dev/null || status=$?
    [ $status = 2 ] || differs "$name" "exit status $status and not 2" messages
    lines 'standard output: No space left on device' > expected
    same "$name" messages expected
    runs=$((runs + 1))
}
full_output 'inspect, no room' "$inspect" titles rules ledger
full_output 'inspect, no room for what is off' "$inspect" titles rules empty
full_output 'inspect, no room for its use' "$inspect" --help
full_output 'buffers, no room' "$buffers" t r l

cat > inspect-usage << 'END'
inspect [--picture] [--keys] TITLES RULES [LEDGER]

Shows the card whose opened title table and rule table are in the files TITLES and RULES, and the ledger that is
in LEDGER: the heads, every entry and row that is in use, how many there are of each kind, and a line for each
thing that is off.

A ledger serves many cards. A title whose row is away and which this card does not have is on another card or lost,
and has a line too.

  --picture   the card is for pictures, not for music
  --keys      title keys and STI keys are shown too

The exit status is 0 where all is well, 1 where something is off, and 2 where a file cannot be read or the command
is wrong.
END
cat > buffers-usage << 'END'
buffers [--picture] [--rows N] [--application N] TITLES RULES LEDGER < REQUESTS

Formats a ledger and a card, carries out the requests whose bytes stand on standard input, and writes the card's
title table and rule table and the ledger to these files. The first request that cannot be read ends the history.

  --picture         the card is for pictures, not for music
  --rows N          rows of the ledger, 1 to 999; else 64
  --application N   application number of ledger and card, 0 to 65535; else 0

The exit status is 0, 1 where a request cannot be read, 2 where a file cannot be written or the command is wrong.
END
for words in '--help' '--help titles rules ledger' 'none --help'; do
    shows "inspect $words" 0 $words < inspect-usage
    ran "buffers $words" 0 "$buffers" $words < /dev/null
    no_messages "buffers $words"
    same "buffers $words" output buffers-usage
done

# misused TOOL MESSAGE WORDS...: the message, and how it is used
misused() {
    rm -f t r l
    fails "$1 ${*:3}" "$2"$'\n\n'"$(cat "$1-usage")"$'\n' "${!1}" "${@:3}"
    [ ! -e t ] && [ ! -e r ] && [ ! -e l ] || differs "$1 ${*:3}" 'wrote a file'
}
misused inspect 'a title table and a rule table are needed'
misused inspect 'a title table and a rule table are needed' titles
misused inspect 'a title table and a rule table are needed' --keys titles
misused inspect 'ledger: a file too many' titles rules ledger ledger
misused inspect '"": a file too many' titles rules ledger ''
misused inspect '--key: no such option' --key titles rules
misused inspect '-: no such option' titles - ledger
misused inspect '--rows: no such option' titles rules --rows 3
misused buffers 'a title table, a rule table and a ledger are needed'
misused buffers 'a title table, a rule table and a ledger are needed' t r
misused buffers 'a title table, a rule table and a ledger are needed' --rows 3 t r
misused buffers 'm: a file too many' t r l m
misused buffers '"": a file too many' t r l ''
misused buffers 't: named twice' t t l
misused buffers 't: named twice' t r --rows 3 t
misused buffers 'r: named twice' t r r
misused buffers 't: named twice' t t
misused buffers '"": named twice' '' '' l
misused buffers '--keys: no such option' t r l --keys
misused buffers '-p: no such option' -p t r l
for rows in 0 1000 18446744073709551617 '' +3 -3 ' 3' 3.0 0x3 3h; do
    misused buffers '--rows: needs a number from 1 to 999' --rows "$rows" t r l
done
misused buffers '--rows: needs a number from 1 to 999' t r l --rows
for application in 65536 18446744073709551616 '' -0 seven; do
    misused buffers '--application: needs a number from 0 to 65535' t r l --application "$application"
done
misused buffers '--application: needs a number from 0 to 65535' t r l --application

echo "inspect: $runs runs"
