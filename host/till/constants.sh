#!/usr/bin/env bash
# Holds the constants and texts of include/music_counter.h to the source, one by one:
#
#   - every refusal's name, number and words: `// Words.` over the variant `SomeName = N,` of the enum Refusal in the source is
#     `COUNTER_SOME_NAME = N` with `/* words */` in the header, and `counter_text` answers these words for it; 0 is `done`; there
#     is no other constant, no number is left out and no two have the same words;
#   - the kinds of an entry, the states of a row and the places of the facts: `kind_number SomeName = N`, `state_number SomeName = N` and
#     the order of `fact_values` in the definitions are `COUNTER_ENTRY_SOME_NAME = N`, `COUNTER_ROW_SOME_NAME = N` and
#     `COUNTER_FACT_SOME_NAME = N` in the second, third and fourth enumeration, from 0 on; there is no other;
#   - every kind of request, its name and number: `kind_of (SomeName ..) = N` in the definitions is `COUNTER_SOME_NAME = N` in the
#     fifth enumeration, from 1 on; there is no other;
#   - every size, and the two values of a pair: what the definitions or the code have for it;
#   - the number of the interface: that of the last landing note that has one, whose checksum of the declarations, of functions and
#     of the struct of a request, is that of the header's, so that no declaration changes without a new number;
#   - the numbers by name in host/requests, which takes its texts from the header.
#
# constants.sh FILE: the source in which refusals have their names. Exit code 1 where something differs, with what it is.
set -euo pipefail
cd "$(dirname "$0")/../.."
header=include/music_counter.h

# NUMBER NAME of each variant of the enum Refusal, its name spelled as a constant's, with the words of the comment over it. A
# line of the enum that is no such variant is an error.
variants() {
    awk '
        /^pub enum Refusal \{$/ { inside = 1; next }
        /^}$/ { inside = 0 }
        !inside { next }
        /^ *\/\/ / { sub(/^ *\/\/ /, ""); words = (words == "" ? "" : words " ") $0; next }
        /^ *[A-Z][A-Za-z]* = [0-9]+,$/ {
            name = $1; gsub(/[A-Z]/, "_&", name); sub(/^_/, "", name)
            sub(/,/, "", $3); sub(/\.$/, "", words)
            print $3, toupper(name), tolower(substr(words, 1, 1)) substr(words, 2)
            words = ""
            next
        }
        { print FILENAME ": no variant with its number: " $0 > "/dev/stderr"; exit 1 }' "$1"
}

# NUMBER NAME of each constant of Rust.
named() {
    sed -nE 's@^pub const ([A-Z_]+): u64 = ([0-9]+);$@\2 \1@p' "$1"
}

# The lines of the header's enumerations, by their number: of the answers, the first, and of the kinds of request, the last.
enumeration() {
    awk -v wanted="$1" '/^enum \{$/ { count++; inside = 1; next } /^};$/ { inside = 0 } inside && count == wanted' "$header"
}

# The same of the enumeration of the answers, and of what counter_text answers.
enumerated() {
    enumeration 1 | sed -nE 's@^ *COUNTER_([A-Z_]+) = ([0-9]+),? */\* (.*) \*/$@\2 \1 \3@p'
}

answered() {
    sed -nE 's@^ *case COUNTER_([A-Z_]+): return "(.*)";$@\1 \2@p' "$header" |
        while read -r name words; do
            echo "$(enumeration 1 | sed -nE "s@^ *COUNTER_$name = ([0-9]+),? .*@\1@p") $name $words"
        done
}

# NUMBER NAME of each line `function SomeName = N` of a definition, its name spelled as a constant's: FUNCTION FILE.
defined() {
    sed -nE "s@^$1 \\(?([A-Za-z]+)( [a-z0-9]+)*\\)? = ([0-9]+)\$@\3 \1@p" "$2" | sed -E 's@([a-z])([A-Z])@\1_\2@g; s@.*@\U&@' | sort -n
}

# NUMBER NAME of each fact, by its place.
defined_facts() {
    sed -nE 's@^fact_values f = (f\..*) ∷ \[\]$@\1@p' crates/formats/specs/Facts.antt | sed 's@ ∷ @\n@g' |
        awk '{ sub(/^f\./, ""); print NR - 1, toupper($0) }'
}

# NUMBER NAME of each constant in an enumeration of the header, behind a prefix that all of them have: NUMBER PREFIX.
in_header() {
    enumeration "$1" | sed -nE "s@^ *COUNTER_$2([A-Z_]+) = ([0-9]+),?( */\\*.*\\*/)?\$@\2 \1@p"
}

# same WHAT WANTED FOUND: two lists, a line each, are the same.
same() {
    diff <(echo "$2") <(echo "$3") > /dev/null || {
        printf '%s: < the source, > here\n' "$1"
        diff <(echo "$2") <(echo "$3") | grep '^[<>]'
        exit 1
    }
}

source=$(echo '0 DONE done'; variants "$1" | sort -n)
last=$(($(wc -l <<< "$source") - 1))
same 'the numbers of the source are not 0 to the last' "$(seq 0 $last)" "$(cut -d' ' -f1 <<< "$source")"
same 'words that two numbers share' "$(cut -d' ' -f3- <<< "$source" | sort -u)" "$(cut -d' ' -f3- <<< "$source" | sort)"
same "the constants of $header" "$source" "$(enumerated)"
same "a line of the first enumeration of $header is none of these" "$((last + 1))" "$(enumeration 1 | grep -c .)"
same "counter_text of $header" "$source" "$(answered)"
constants=$((last + 1))

# listed WHAT FIRST DEFINED NUMBER PREFIX: the constants of an enumeration are those of a definition, from a number on.
listed() {
    local count
    count=$(wc -l <<< "$3")
    same "the $1 of the definition are not $2 to the last" "$(seq "$2" $(($2 + count - 1)))" "$(cut -d' ' -f1 <<< "$3")"
    same "the $1 of $header" "$3" "$(in_header "$4" "$5")"
    same "a line of the enumeration of the $1 of $header is none of these" "$count" "$(enumeration "$4" | grep -c .)"
    constants=$((constants + count))
}

inspection=crates/inspection/specs/Inspect.antt
kinds=$(defined kind_of crates/requests/specs/Request.antt)
facts=$(defined_facts)
listed 'kinds of an entry' 0 "$(defined kind_number $inspection)" 2 ENTRY_
listed 'states of a row' 0 "$(defined state_number $inspection)" 3 ROW_
listed 'places of facts' 0 "$facts" 4 FACT_
listed 'kinds of request' 1 "$kinds" 5 ''
same 'a line of kind_of is none of these' "$(wc -l <<< "$kinds")" "$(grep -c '^kind_of ' crates/requests/specs/Request.antt)"
same "a constant of $header is in no enumeration" "$constants" "$(grep -cE 'COUNTER_[A-Z0-9_]+ *=' "$header")"
requests=$(named host/requests/answers.rs)
[ -n "$requests" ] || { echo 'host/requests/answers.rs: no number has a name'; exit 1; }
same 'host/requests/answers.rs' "$(cut -d' ' -f1,2 <<< "$source" | grep -xF "$requests")" "$requests"

# The number in the one line of a file that this expression matches: EXPRESSION FILE.
number() {
    local found
    found=$(sed -nE "s@^.*$1.*\$@\1@p" "$2")
    [[ $found =~ ^[0-9]+$ ]] || { echo "$2: no line, or several, with a number in $1: $found" >&2; exit 1; }
    echo "$found"
}

# The most bytes of a request: of its kind one byte, and of each argument as many as its greatest value has groups of seven bits.
longest_request() {
    awk '
        BEGIN {
            bytes["Content"] = bytes["Entry"] = 2                                                    # 999
            bytes["Cci"] = bytes["Trigger"] = bytes["Rights"] = bytes["Permits"] = 1                 # at most 15
            bytes["Key"] = 8                                                                         # 2^56 - 1
            bytes["Any"] = 10                                                                        # 2^64 - 1
        }
        function sum(text,    words, count, i, total) {
            gsub(/[^A-Za-z_]/, " ", text)
            count = split(text, words, " ")
            for (i = 1; i <= count; i++) total += words[i] == "fact_arguments" ? facts : bytes[words[i]]
            return total
        }
        /^fact_arguments = / { facts = sum($0) - 0 }
        /^ *\(?cond \(eqb kind [1-7]\) \((Content|Entry) ∷/ { if (1 + sum($0) > most) most = 1 + sum($0) }
        END { print most }' crates/requests/specs/Request.antt
}

# The value of C's `bool pair` that means this pair.
pair() {
    sed -nE "s@^pair_of (false|true) = $1\$@\1@p" crates/till/specs/Given.antt
}

# The declarations of the header's functions and of its struct, without their layout, as a checksum.
declarations() {
    awk '
        /^uint64_t counter_/ { inside = 1; end = ";$" }
        /^struct counter_/ { inside = 1; end = "^};$" }
        inside
        inside && $0 ~ end { inside = 0 }' "$header" | tr -s ' \n' ' ' | cksum | cut -d' ' -f1
}

interface=$(sed -nE 's@^Interface: ([0-9]+), declarations ([0-9]+)$@\1 \2@p' docs/landings/*.md | sort -n | tail -n 1)
same 'the declarations, by their checksum, of the last landing note that has one' "${interface#* }" "$(declarations)"
sizes="INTERFACE ${interface% *}
AUDIO $(pair Audio)
PICTURE $(pair Picture)
TITLES_SIZE $(number 'table_passes \(titles_identifier pair\) ([0-9]+) ' crates/formats/specs/Head.antt)
RULES_SIZE $(number 'rules_pass pair r = table_passes \(rules_identifier pair\) ([0-9]+) ' crates/formats/specs/Head.antt)
LEDGER_SIZE $(number 'eqb \(length l\) \(([0-9]+) \* \(rows_of l \+ 1\)\)' crates/formats/specs/Head.antt) * (rows + 1)
SHEET_SIZE $(number '^sheet_size = ([0-9]+)$' crates/closing_sheet/specs/Demand1.antt)
MOST_ROWS $(number '^numbered v = leb 1 v \&\& leb v ([0-9]+)' crates/formats/specs/Facts.antt)
LAST_ENTRY $(number 'eqb \(number \(part t 10 2\)\) ([0-9]+) ' crates/formats/specs/Head.antt)
UNLIMITED $(number '^pub const UNLIMITED: u64 = ([0-9]+);' crates/calls/src/count.rt)
FACT_COUNT $(wc -l <<< "$facts")
BASKET_SIZE $(number '17 when ltb ([0-9]+) count' crates/calls/specs/Preview.antt)
ARGUMENTS $(number ' arguments: &mut \[u64; ([0-9]+)\]' crates/till/src/lib.rt)
LONGEST_REQUEST $(longest_request)"
defined=$(sed -nE 's@^#define COUNTER_([A-Z_]+)(\(rows\))? (.*)$@\1 \3@p' "$header" | sed -E 's@\((24 \* .*)\)$@\1@; s@\(\(size_t\)\(rows\)@(rows@')
same "the sizes, pairs and interface of $header" "$(sort <<< "$sizes")" "$(sort <<< "$defined")"
echo "constants: $((last + 1)) numbers with their words, $((constants - last - 1)) kinds, states and places, $(wc -l <<< "$sizes") sizes and others"
