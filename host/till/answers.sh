#!/usr/bin/env bash
# Holds what comments say of the answers of the seven calls, formatting, tally, inspection, the sheet and the preview to the
# definitions: in the header "Answers 4, 5; 10 where ..", in the source "// Answers 0, or 4, 5 or 10 with .." over a C function and "// Done, or
# refused with 4, 5 or 10 and .." over one below it, all in the order tested, and in docs/RULES.md the table of tests. Reading,
# writing and performing a request are left out: what they answer after the first tests depends on the request. Exit code 1 where
# one differs, with what it is.
set -euo pipefail
cd "$(dirname "$0")/../.."

# STATEMENT NUMBER NUMBER ..: of what is told after checks, by tally and inspection.
told() {
    awk '
        /^[A-Z][A-Za-z]+ .* =$/ { name = $1 }
        /^ +RefusedOrTold \(/ { sub(/^ +RefusedOrTold \(/, ""); sub(/ ∷ \[\]\).*/, ""); print name, $0 }' "$@"
}

# FUNCTION NUMBER NUMBER ..: `checked` of a call, and the numbers that the demands have for formatting, tally, inspection, sheet and preview.
defined() {
    sed -nE 's@^checked \(([A-Za-z]+) .*\) = (.*) ∷ \[\]$@\1 \2@p' crates/calls/specs/Perform.antt |
        sed -E 's@([a-z])([A-Z])@\1_\2@; s@^[A-Za-z_]+@\L&@'
    told crates/tables/specs/Demand1.antt crates/inspection/specs/Demand1.antt |
        sed -E 's@^Tallies @tally @; s@^Inspects([A-Z])@inspect\1@; s@^([A-Za-z]+)([A-Z])@\1_\2@; s@^[A-Za-z_]+@\L&@'
    sed -nE 's@^.*RefusedFirst .* \((.*) ∷ \[\]\) \((ledger|card)_conditions .*@\2 \1@p' crates/tables/specs/Demand1.antt |
        sed -E 's@^(ledger|card)@format_\1@'
    sed -nE 's@^.*RefusedFirst .* \((.*) ∷ \[\]\) \(sheet_conditions .*@sheet \1@p' crates/closing_sheet/specs/Demand1.antt
    sed -nE 's@^.*RefusedFirst .* \((.*) ∷ \[\]\) \(preview_conditions .*@preview \1@p' crates/calls/specs/Preview.antt
}

# The comments of the header: the numbers that clauses start with, before what is said of a call that is done.
in_header() {
    awk '
        /^\/\*$/ { text = "" }
        / Done:/ { done = 1 }
        /^ \* / && !done { text = text " " substr($0, 4) }
        /^ \*\/$/ { done = 0 }
        /^uint64_t counter_/ && match(text, /Answers [0-9]/) {
            name = $2; sub(/^counter_/, "", name); sub(/\(.*/, "", name)
            text = substr(text, RSTART + 8)
            count = split(text, clauses, /[;.] /)
            for (i = 1; i <= count; i++) if (match(clauses[i], /^[0-9]+(, [0-9]+)*/)) name = name " " substr(clauses[i], 1, RLENGTH)
            print name
        }' include/music_counter.h
}

# The comments over functions of these files.
in_source() {
    awk '
        /^\/\/ (Answers 0, or|Done, or refused with) / {
            text = $0
            sub(/^\/\/ (Answers 0, or|Done, or refused with) /, "", text); sub(/ (with|and) .*/, "", text); sub(/ or /, " ", text)
            next
        }
        text != "" && /(^| )fn / {
            name = $0; sub(/^.*fn (counter_)?/, "", name); sub(/[<(].*/, "", name)
            print name, text
            text = ""
        }' "$@"
}

in_rules() {
    sed -nE 's@^\| ([a-z -]+) \| ([0-9, ]+) \| `crates/.*@\1: \2@p' docs/RULES.md |
        sed -E 's@formatting a @format @; s@[ -]([a-z]+):@_\1:@; s@:@@'
}

# same WHERE LIST [FUNCTIONS]: the functions of a list, all sixteen or those of an expression, have the numbers of the definitions.
same() {
    local wanted found
    wanted=$(defined | sed 's@ ∷@@g' | grep -E "^(${3-.*}) " | sort)
    found=$(sed 's@,@@g' <<< "$2" | grep -vE '^((read|write)_request|perform) ' | sort)
    diff <(echo "$wanted") <(echo "$found") > /dev/null || {
        printf 'the answers in %s: < the definitions, > here\n' "$1"
        diff <(echo "$wanted") <(echo "$found") | grep '^[<>]'
        exit 1
    }
}

[ "$(defined | wc -l)" = 16 ] || { echo 'not sixteen lists of numbers in the definitions:'; defined; exit 1; }
same include/music_counter.h "$(in_header)"
same crates/till/src/lib.rt "$(in_source crates/till/src/lib.rt)"
same crates/tables/src/format.rt "$(in_source crates/tables/src/format.rt)" 'format_ledger|format_card'
same crates/music_counter/src "$(in_source crates/music_counter/src/*.rt)" 'register|record|check_out|check_in|move_out|move_in|delete|preview'
same docs/RULES.md "$(in_rules)"
echo 'answers: sixteen functions in the header, the source and the rules'
