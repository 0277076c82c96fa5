#!/usr/bin/env bash
# Runs the program `requests` and compares its exit code, everything it prints and every message. The expected bytes are worked
# out from document 01, by hand.
set -euo pipefail
requests=$(realpath "$1")
root=$(realpath "$(dirname "$0")/../..")
folder=$(mktemp -d)
trap 'rm -r "$folder"' EXIT
cd "$folder"
checks=0

# ---------------------------------------------------------------- what is compared

# the bytes given in hexadecimal
bytes() {
    printf "$(printf '%s' "$*" | tr -d ' ' | sed 's/../\\x&/g')"
}

# each argument as a line; nothing where there is none
lines() {
    if [ $# -gt 0 ]; then printf '%s\n' "$@"; fi
}

differs() {
    printf '%s: %s\n' "$1" "$2"
    for file in "${@:3}"; do
        echo "--- $file"
        cat -v "$file"
    done
    exit 1
}

# check NAME CODE ARGUMENTS...: a run against the files expected-output and expected-messages
check() {
    local name=$1 code=$2 answered=0
    shift 2
    "$requests" "$@" > output 2> messages || answered=$?
    [ "$answered" = "$code" ] || differs "$name" "exit code $answered and not $code" output messages
    cmp -s output expected-output || differs "$name" 'another output' output expected-output messages
    cmp -s messages expected-messages || differs "$name" 'other messages' messages expected-messages
    checks=$((checks + 1))
}

# written NAME HEXADECIMAL LINES...: the lines give the bytes
written() {
    bytes "$2" > expected-output
    : > expected-messages
    lines "${@:3}" > lines.txt
    check "$1" 0 bytes lines.txt < /dev/null
}

# read_back NAME HEXADECIMAL LINES...: the bytes give the lines
read_back() {
    lines "${@:3}" > expected-output
    : > expected-messages
    bytes "$2" > requests.bin
    check "$1" 0 lines requests.bin < /dev/null
}

both_ways() {
    written "$@"
    read_back "$@"
}

# faulty MESSAGE LINES...: lines that `bytes` does not write
faulty() {
    : > expected-output
    lines "$1" > expected-messages
    lines "${@:2}" > lines.txt
    check "$1" 1 bytes lines.txt < /dev/null
}

# stopped MESSAGE HEXADECIMAL LINES...: bytes that can be read as far as the lines go
stopped() {
    lines "${@:3}" > expected-output
    lines "requests.bin: byte offset $1" > expected-messages
    bytes "$2" > requests.bin
    check "$1" 1 lines requests.bin < /dev/null
}

# answered NAME: the files lines.txt and answers.txt beside each other give the table on standard input
answered() {
    cat > expected-output
    : > expected-messages
    check "$1" 0 beside lines.txt answers.txt < /dev/null
}

# unfit MESSAGE ANSWERS...: answers that do not fit to lines.txt
unfit() {
    : > expected-output
    lines "$1" > expected-messages
    lines "${@:2}" > answers.txt
    check "$1" 1 beside lines.txt answers.txt < /dev/null
}

# ---------------------------------------------------------------- every form, both ways

both_ways 'register' '01 01 02 00 03 04 05 06' 'register 1 cci=2 trigger=0 rights=3 permits=4 title-key=5 sti-key=6'
both_ways 'record' '02 01 07 03 01 0E 0F 05 06 09' \
    'record 1 7 cci=3 trigger=1 rights=14 permits=15 title-key=5 sti-key=6 hash=9'
both_ways 'check-out' '03 01 07' 'check-out 1 7'
both_ways 'check-in' '04 07 09' 'check-in 7 f1=9'
both_ways 'move-out' '05 07 09 01 02 03 04' 'move-out 7 hash=9 f1=1 f2=2 f3=3 f4=4'
both_ways 'move-in' '06 01 09 00' 'move-in 1 9 hash=0'
both_ways 'delete' '07 07 01 02 03 04' 'delete 7 f1=1 f2=2 f3=3 f4=4'
both_ways 'nothing' ''

example=(
    'register 1 cci=2 trigger=0 rights=1 permits=1 title-key=5 sti-key=6'
    'check-out 1 7'
    'check-out 1 8'
    'move-in 1 9 hash=0'
    'check-in 7 f1=9'
    'move-in 1 9 hash=0'
)
both_ways "document 01's example" '01 01 02 00 01 01 05 06 03 01 07 03 01 08 06 01 09 00 04 07 09 06 01 09 00' "${example[@]}"
both_ways 'check-out of row 5 to entry 999' '03 05 E7 07' 'check-out 5 999'

# ---------------------------------------------------------------- numbers

both_ways '0' '04 01 00' 'check-in 1 f1=0'
both_ways '127' '04 7F 7F' 'check-in 127 f1=127'
both_ways '128' '04 80 01 80 01' 'check-in 128 f1=128'
both_ways '999' '04 E7 07 E7 07' 'check-in 999 f1=999'
both_ways '1000' '04 01 E8 07' 'check-in 1 f1=0x3e8'
both_ways '2^14 - 1' '04 01 FF 7F' 'check-in 1 f1=0x3fff'
both_ways '2^14' '04 01 80 80 01' 'check-in 1 f1=0x4000'
both_ways 'groups in their order' '04 01 81 82 03' 'check-in 1 f1=0xc101'
both_ways '2^56 - 1' '01 E7 07 00 01 0F 0F FF FF FF FF FF FF FF 7F FF FF FF FF FF FF FF 7F' \
    'register 999 cci=0 trigger=1 rights=15 permits=15 title-key=0xffffffffffffff sti-key=0xffffffffffffff'
both_ways '2^56' '04 01 80 80 80 80 80 80 80 80 01' 'check-in 1 f1=0x100000000000000'
both_ways '2^63 - 1' '04 01 FF FF FF FF FF FF FF FF 7F' 'check-in 1 f1=0x7fffffffffffffff'
both_ways '2^63' '04 01 80 80 80 80 80 80 80 80 80 01' 'check-in 1 f1=0x8000000000000000'
both_ways '2^64 - 1' '06 01 01 FF FF FF FF FF FF FF FF FF 01' 'move-in 1 1 hash=0xffffffffffffffff'
both_ways 'from 1000 on, keys and hashes' '02 01 01 00 00 00 00 E7 07 E8 07 E9 07' \
    'record 1 1 cci=0 trigger=0 rights=0 permits=0 title-key=999 sti-key=0x3e8 hash=0x3e9'
both_ways 'from 1000 on, fillers' '05 01 E8 07 E9 07 EA 07 EB 07 EC 07' 'move-out 1 hash=0x3e8 f1=0x3e9 f2=0x3ea f3=0x3eb f4=0x3ec'
written '2^64 - 1 in decimal' '04 01 FF FF FF FF FF FF FF FF FF 01' 'check-in 1 f1=18446744073709551615'
written 'hexadecimal everywhere' '03 E7 07 0A' 'check-out 0x3e7 0x0A'
written 'large and small digits, zeros before' '06 07 0A AB 99 02' 'move-in 007 0x00a hash=0x8cAB'

# ---------------------------------------------------------------- the layout of lines

written 'named arguments in another order' '05 07 09 01 02 03 04' 'move-out 7 f4=4 f2=2 hash=9 f1=1 f3=3'
written 'all of a record in another order' '02 01 07 03 01 0E 0F 05 06 09' \
    'record 1 7 hash=9 sti-key=6 title-key=5 permits=15 rights=14 trigger=1 cci=3'
written 'spaces, blank lines and comments' '03 01 07 04 07 09' \
    '# a history' '' '   check-out   1  7   ' '  ' '#check-out 1 8' $'\tcheck-in 7 f1=9# returned' '# end'
written 'lines with carriage returns' '03 01 07 03 01 08' $'check-out 1 7\r' $'check-out 1 8 # lent\r'
: > expected-messages
bytes 03 01 07 > expected-output
check 'a last line without its end' 0 bytes < <(printf 'check-out 1 7')
check 'standard input by its sign' 0 bytes - < <(printf 'check-out 1 7\n')
lines 'check-out 1 7' > expected-output
check 'bytes on standard input' 0 lines < <(bytes 03 01 07)

# a file with all forms: to bytes, back to the same lines, and to the same bytes again
lines "${example[@]}" 'record 64 999 cci=0 trigger=1 rights=0 permits=15 title-key=0x11223344556677 sti-key=0x3e8 hash=999' \
    'move-out 999 hash=0xfedcba9876543210 f1=0x8000000000000000 f2=128 f3=127 f4=0' 'delete 500 f1=1 f2=2 f3=0x4000 f4=4' > all.txt
"$requests" bytes all.txt > all.bin
cp all.txt expected-output
check 'all forms, to bytes and back' 0 lines all.bin
cp all.bin expected-output
check 'all forms, to bytes again' 0 bytes < <("$requests" lines all.bin)

# ---------------------------------------------------------------- lines at fault

seven='register, record, check-out, check-in, move-out, move-in, delete'
facts='cci= trigger= rights= permits= title-key= sti-key='
faulty "lines.txt:1: checkout is none of the seven: $seven" 'checkout 1 7'
faulty "lines.txt:1: Register is none of the seven: $seven" 'Register 1'
faulty "lines.txt:4: 3 is none of the seven: $seven" 'check-out 1 7' '# lent' '' '3 1 7' 'check-out 1 8'

faulty 'lines.txt:3: check-out takes a content ID and an entry number' "${example[@]:0:2}" 'check-out 1'
faulty 'lines.txt:1: check-out takes a content ID and an entry number' 'check-out'
faulty 'lines.txt:1: check-out takes a content ID and an entry number' 'check-out 1 7 9'
faulty 'lines.txt:1: check-out takes a content ID and an entry number' 'check-out entry=7 1'
faulty "lines.txt:1: register takes a content ID, then $facts" 'register cci=2'
faulty "lines.txt:1: register takes a content ID, then $facts" 'register 1 2 0 1 1 5 6'
faulty "lines.txt:1: record takes a content ID and an entry number, then $facts hash=" 'record 1 cci=2'
faulty 'lines.txt:1: check-in takes an entry number, then f1=' 'check-in f1=9 7'
faulty 'lines.txt:1: check-in takes an entry number, then f1=' 'check-in 7 f1=9 8'
faulty 'lines.txt:1: move-out takes an entry number, then hash= f1= f2= f3= f4=' 'move-out'
faulty 'lines.txt:1: move-in takes a content ID and an entry number, then hash=' 'move-in 1 hash=0'
faulty 'lines.txt:1: delete takes an entry number, then f1= f2= f3= f4=' 'delete 1 7 f1=1 f2=2 f3=3 f4=4'

faulty 'lines.txt:1: register lacks sti-key=' 'register 1 cci=2 trigger=0 rights=1 permits=1 title-key=5'
faulty 'lines.txt:1: move-out lacks hash= f2=' 'move-out 7 f1=1 f3=3 f4=4'
faulty 'lines.txt:1: check-in lacks f1=' 'check-in 7'
faulty 'lines.txt:1: check-in has f1= twice' 'check-in 7 f1=9 f1=9'
faulty 'lines.txt:1: register has cci= twice' 'register 1 cci=2 trigger=0 rights=1 permits=1 title-key=5 cci=3 sti-key=6'
faulty 'lines.txt:1: check-in takes no f2=, but an entry number, then f1=' 'check-in 7 f1=9 f2=8'
faulty 'lines.txt:1: check-out takes no hash=, but a content ID and an entry number' 'check-out 1 7 hash=0'
faulty 'lines.txt:1: check-in takes no F1=, but an entry number, then f1=' 'check-in 7 F1=9'
faulty 'lines.txt:1: check-in takes no =, but an entry number, then f1=' 'check-in 7 =9'

number='is not a number in decimal, or in hexadecimal with 0x'
faulty "lines.txt:1: content ID one $number" 'check-out one 7'
faulty "lines.txt:1: entry number 7h $number" 'check-out 1 7h'
faulty "lines.txt:1: f1= $number" 'check-in 7 f1='
faulty "lines.txt:1: f1=0x $number" 'check-in 7 f1=0x'
faulty "lines.txt:1: f1=+9 $number" 'check-in 7 f1=+9'
faulty "lines.txt:1: f1=0x+9 $number" 'check-in 7 f1=0x+9'
faulty "lines.txt:1: f1=-1 $number" 'check-in 7 f1=-1'
faulty "lines.txt:1: f1=1,000 $number" 'check-in 7 f1=1,000'
faulty "lines.txt:1: f1=1=2 $number" 'check-in 7 f1=1=2'
faulty "lines.txt:1: f1=ff $number" 'check-in 7 f1=ff'
faulty 'lines.txt:1: f1=18446744073709551616 is above 2^64 - 1' 'check-in 7 f1=18446744073709551616'
faulty 'lines.txt:1: hash=0x10000000000000000 is above 2^64 - 1' 'move-in 1 9 hash=0x10000000000000000'
faulty 'lines.txt:1: content ID 99999999999999999999 is above 2^64 - 1' 'check-out 99999999999999999999 7'

# a message for each line at fault, and no bytes
faulty $'lines.txt:2: check-in lacks f1=\nlines.txt:4: check-in has f1= twice' \
    'check-out 1 7' 'check-in 7' 'check-out 1 7' 'check-in 7 f1=1 f1=2'
: > expected-output
lines 'standard input:2: check-in lacks f1=' > expected-messages
check 'a fault on standard input' 1 bytes < <(lines 'check-out 1 7' 'check-in 7')
lines 'none.txt: No such file or directory (os error 2)' > expected-messages
check 'no such file of lines' 1 bytes none.txt < /dev/null
check 'no such file of bytes' 1 lines none.txt < /dev/null

# ---------------------------------------------------------------- limits

# past MESSAGE REFUSAL HEXADECIMAL LINE: an error, and with --past-limits the bytes
past() {
    faulty "lines.txt:1: $1 (refusal $2; --past-limits writes it all the same)" "$4"
    bytes "$3" > expected-output
    : > expected-messages
    check "$4, past limits" 0 bytes --past-limits lines.txt < /dev/null
}
past 'content ID 0 is not 1 to 999' 4 '03 00 07' 'check-out 0 7'
past 'content ID 1000 is not 1 to 999' 4 '03 E8 07 07' 'check-out 1000 7'
past 'entry number 0 is not 1 to 999' 5 '03 01 00' 'check-out 1 0'
past 'entry number 1000 is not 1 to 999' 5 '04 E8 07 09' 'check-in 1000 f1=9'
past 'cci=1 is not 0, 2 or 3' 6 '01 01 01 00 01 01 05 06' \
    'register 1 cci=1 trigger=0 rights=1 permits=1 title-key=5 sti-key=6'
past 'cci=4 is not 0, 2 or 3' 6 '02 01 07 04 00 01 01 05 06 09' \
    'record 1 7 cci=4 trigger=0 rights=1 permits=1 title-key=5 sti-key=6 hash=9'
past 'trigger=2 is not 0 or 1' 6 '01 01 02 02 01 01 05 06' \
    'register 1 cci=2 trigger=2 rights=1 permits=1 title-key=5 sti-key=6'
past 'rights=16 is not 0 to 15' 6 '01 01 02 00 10 01 05 06' \
    'register 1 cci=2 trigger=0 rights=16 permits=1 title-key=5 sti-key=6'
past 'permits=16 is not 0 to 15' 6 '01 01 02 00 01 10 05 06' \
    'register 1 cci=2 trigger=0 rights=1 permits=16 title-key=5 sti-key=6'
past 'title-key=0x100000000000000 is not below 2^56' 6 '01 01 02 00 01 01 80 80 80 80 80 80 80 80 01 06' \
    'register 1 cci=2 trigger=0 rights=1 permits=1 title-key=0x100000000000000 sti-key=6'
past 'sti-key=0x100000000000000 is not below 2^56' 6 '01 01 02 00 01 01 05 80 80 80 80 80 80 80 80 01' \
    'register 1 cci=2 trigger=0 rights=1 permits=1 title-key=5 sti-key=0x100000000000000'
# past several limits, the one that the counter tests first is named
past 'content ID 0 is not 1 to 999' 4 '06 00 00 00' 'move-in 0 0 hash=0'

# every other error stays one with --past-limits, wherever that stands
: > expected-output
lines 'lines.txt:1: check-in lacks f1=' > expected-messages
lines 'check-in 1000' > lines.txt
check 'past limits, and a fault' 1 bytes lines.txt --past-limits < /dev/null

# ---------------------------------------------------------------- bytes at fault

short='refusal 1, request bytes end too early, or too little room for them'
form='refusal 2, a number that is not in its shortest form or too large'
content='refusal 4, content ID (in formatting: rows) not 1 to 999'
entry='refusal 5, entry number not 1 to 999'
fact='refusal 6, a fact out of range'

# cut WORD HEXADECIMAL ARGUMENTS...: a request of one-byte numbers, cut off before each of its arguments
cut() {
    local word=$1 numbers=($2) count
    shift 2
    for ((count = 1; count < ${#numbers[@]}; count++)); do
        stopped "$count ($word, ${!count}): $short" "${numbers[*]:0:count}"
    done
}
facts=(cci trigger rights permits title-key sti-key)
cut register '01 01 02 00 01 01 05 06' 'content ID' "${facts[@]}"
cut record '02 01 07 02 00 01 01 05 06 09' 'content ID' 'entry number' "${facts[@]}" hash
cut check-out '03 01 07' 'content ID' 'entry number'
cut check-in '04 07 09' 'entry number' f1
cut move-out '05 07 09 01 02 03 04' 'entry number' hash f1 f2 f3 f4
cut move-in '06 01 09 00' 'content ID' 'entry number' hash
cut delete '07 07 01 02 03 04' 'entry number' f1 f2 f3 f4

# numbers, as a kind and as an argument, in the first request and after others
stopped "0 (kind): $short" '80'
stopped "0 (kind): $form" '80 00'
stopped "0 (kind): $form" '83 00 01 07'
stopped "3 (kind): $form" '03 01 07 83 80 00' 'check-out 1 7'
stopped "4 (check-out, content ID): $form" '03 01 07 03 81 00 08' 'check-out 1 7'
stopped "2 (check-in, f1): $short" '04 07 FF FF FF FF FF FF FF FF FF'
stopped "2 (check-in, f1): $form" '04 07 FF FF FF FF FF FF FF FF FF 02'
stopped "2 (check-in, f1): $form" '04 07 FF FF FF FF FF FF FF FF FF 00'
stopped "2 (check-in, f1): $form" '04 07 FF FF FF FF FF FF FF FF FF 81 01'
stopped "2 (check-in, f1): $form" '04 07 FF FF FF FF FF FF FF FF 00'
stopped "6 (move-out, f2): $form" '05 07 80 01 E8 07 80 80 00'

kind='refusal 3, no such kind of request'
stopped "0 (kind): $kind" '00'
stopped "0 (kind): $kind" '08'
stopped "3 (kind): $kind" '03 01 07 08 01 07 03 01 08' 'check-out 1 7'
stopped "0 (kind): $kind" '81 01 80'

# the limit of each number is tested before the next is read
stopped "1 (check-out, content ID): $content" '03 00'
stopped "1 (check-out, content ID): $content" '03 E8 07 80 00'
stopped "2 (check-out, entry number): $entry" '03 01 00'
stopped "1 (check-in, entry number): $entry" '04 E8 07'
stopped "10 (move-in, entry number): $entry" '01 01 02 00 01 01 05 06 06 01 00 80' "${example[0]}"
stopped "2 (register, cci): $fact" '01 01 01'
stopped "2 (register, cci): $fact" '01 01 04'
stopped "3 (register, trigger): $fact" '01 01 02 02'
stopped "4 (register, rights): $fact" '01 01 02 00 10'
stopped "5 (register, permits): $fact" '01 01 02 00 01 10'
stopped "6 (register, title-key): $fact" '01 01 02 00 01 01 80 80 80 80 80 80 80 80 01'
stopped "7 (register, sti-key): $fact" '01 01 02 00 01 01 05 80 80 80 80 80 80 80 80 01'
stopped "3 (record, cci): $fact" '02 01 07 01'

: > expected-output
lines "standard input: byte offset 1 (check-out, content ID): $short" > expected-messages
check 'a fault in bytes on standard input' 1 lines < <(bytes 03)

# ---------------------------------------------------------------- answers beside lines

# document 01's example, and what it says that counter prints for it
lines "${example[@]}" '# the end' > lines.txt
lines '1 0' '3 0' '3 12' '6 14' '4 0' '6 0' 'end 0' > answers.txt
answered "document 01's example beside its answers" << 'END'
register 1 cci=2 trigger=0 rights=1 permits=1 title-key=5 sti-key=6   0  done
check-out 1 7                                                         0  done
check-out 1 8                                                        12  no permit left, no move right left, or the trigger is set
move-in 1 9 hash=0                                                   14  a copy of the title is on the card
check-in 7 f1=9                                                       0  done
move-in 1 9 hash=0                                                    0  done
end                                                                   0  no byte is left
END
check 'answers on standard input' 0 beside lines.txt - < answers.txt
check 'lines on standard input' 0 beside - answers.txt < lines.txt

# the example history, with the answers that document 01 gives it
cp "$root/examples/history.txt" lines.txt
lines '1 0' '3 0' '3 12' '6 14' '4 0' '6 0' '3 11' '5 12' '7 0' '1 11' 'end 0' > answers.txt
answered 'the example history' < "$root/examples/history-answers.txt"

: > lines.txt
lines 'end 0' > answers.txt
answered 'no lines' <<< 'end   0  no byte is left'

# every answer, in the words of the C header
texts=$(sed -n 's/^ *case COUNTER_[A-Z_]*: return "\(.*\)";$/\1/p' "$root/include/music_counter.h")
[ "$(wc -l <<< "$texts")" = 19 ] || differs 'every answer' 'the header does not have 19 texts'
for number in {0..18}; do echo 'check-out 1 7'; done > lines.txt
{ for number in {0..18}; do echo "3 $number"; done; echo 'end 0'; } > answers.txt
answered 'every answer' < <(
    number=0
    while read -r text; do printf 'check-out 1 7  %2d  %s\n' $((number++)) "$text"; done <<< "$texts"
    echo 'end             0  no byte is left'
)

# what was written past a limit stops reading; a line is shown as it was written, but for spaces and comments
lines 'check-out   0x01 7  # lent' 'check-out 1000 7' 'check-in 7 f1=0x9' > lines.txt
lines '3 11' 'end 4' > answers.txt
answered 'reading that stops' << 'END'
check-out 0x01 7   11  row above R or not in the state needed
check-out 1000 7    -  not read
check-in 7 f1=0x9   -  not read
end                 4  reading stopped: content ID (in formatting: rows) not 1 to 999
END
unfit 'answers.txt:2: end 0, but reading lines.txt gives end 4' '3 11' 'end 0'
unfit 'answers.txt:2: end 5, but reading lines.txt gives end 4' '3 11' 'end 5'
unfit 'answers.txt:2: an answer, but counter reads no more of lines.txt' '3 11' '3 11' 'end 4'

# counter reads 4,096 bytes at most: 1,365 check-outs of three bytes, and one byte of the next
many() {
    local k
    for ((k = 0; k < $1; k++)); do echo "$2"; done
}
many 1366 'check-out 1 7' > lines.txt
{ many 1365 '3 11'; echo 'end 1'; } > answers.txt
answered 'more bytes than counter reads' < <(
    many 1365 'check-out 1 7  11  row above R or not in the state needed'
    lines 'check-out 1 7   -  not read'
    lines "end             1  reading stopped: ${short#*, } (counter reads 4,096 bytes at most)"
)
{ many 1364 'check-out 1 7'; lines 'check-out 1 999' 'check-out 1 7'; } > lines.txt
{ many 1365 '3 11'; echo 'end 0'; } > answers.txt
answered 'as many bytes as counter reads, and a line more' < <(
    many 1364 'check-out 1 7    11  row above R or not in the state needed'
    lines 'check-out 1 999  11  row above R or not in the state needed' 'check-out 1 7     -  not read'
    lines 'end               0  no byte is left (counter reads 4,096 bytes at most)'
)

{ many 1364 'check-out 1 7'; lines 'check-out 1 999'; } > lines.txt
answered 'as many bytes as counter reads' < <(
    many 1364 'check-out 1 7    11  row above R or not in the state needed'
    lines 'check-out 1 999  11  row above R or not in the state needed' 'end               0  no byte is left'
)

{ lines 'check-out 1 0'; many 1366 'check-out 1 7'; } > lines.txt
lines 'end 5' > answers.txt
answered 'more bytes, but reading stops before' < <(
    lines 'check-out 1 0   -  not read'
    many 1366 'check-out 1 7   -  not read'
    lines 'end             5  reading stopped: entry number not 1 to 999'
)

# files that do not fit together
lines '# a history' 'check-out 1 7' 'check-in 7 f1=9' > lines.txt
unfit 'answers.txt:2: an answer to kind 3, but lines.txt:3 is check-in, kind 4' '3 11' '3 11' 'end 0'
unfit 'lines.txt:3: check-in has no answer in answers.txt' '3 11' 'end 0'
unfit 'answers.txt:3: an answer, but counter reads no more of lines.txt' '3 11' '4 10' '4 10' 'end 0'
unfit 'answers.txt:3: end 1, but reading lines.txt gives end 0' '3 11' '4 10' 'end 1'
unfit 'answers.txt: does not end in a line with end and a number' '3 11' '4 10'
unfit 'answers.txt: does not end in a line with end and a number' '3 11' '4 10' 'end'
unfit 'answers.txt: does not end in a line with end and a number' '3 11' '4 10' 'end 0' ''
unfit 'answers.txt: does not end in a line with end and a number'
unfit 'answers.txt:1: end 0 is not a kind and an answer' 'end 0' '3 11' '4 10' 'end 0'
unfit 'answers.txt:2: 4 is not a kind and an answer' '3 11' '4' 'end 0'
unfit 'answers.txt:2: 4 10 0 is not a kind and an answer' '3 11' '4 10 0' 'end 0'
unfit 'answers.txt:2: 4  10 is not a kind and an answer' '3 11' '4  10' 'end 0'
unfit 'answers.txt:2: 4 +10 is not a kind and an answer' '3 11' '4 +10' 'end 0'
unfit 'answers.txt:2: 4 19 is not a kind and an answer' '3 11' '4 19' 'end 0'
lines 'check-out 1 7' 'check-in 7' > lines.txt
unfit 'lines.txt:2: check-in lacks f1=' '3 11' 'end 0'

# ---------------------------------------------------------------- commands

# what the program says of its use has all seven forms, and they are right
"$requests" 2> usage && exit 1
: > expected-messages
bytes 01 01 02 00 01 01 05 06 02 01 07 02 00 01 01 05 06 09 03 01 07 04 07 09 > expected-output
bytes 05 07 09 01 02 03 04 06 01 09 00 07 07 01 02 03 04 >> expected-output
check 'the forms in the words on its use' 0 bytes < <(grep -E '^(register|record|check|move|delete)' usage)

: > expected-output
cp usage expected-messages
for wrong in '' 'words' 'bytes a b' 'lines a b' 'lines --past-limits' 'bytes --past-limit' 'bytes --past-limits --past-limits' \
    'beside' 'beside a' 'beside a b c' 'beside - -' 'beside --past-limits a b' '--help'; do
    check "requests $wrong" 2 $wrong < /dev/null
done

echo "requests: $checks checks"
