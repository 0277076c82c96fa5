#!/usr/bin/env bash
# Tries check.sh on documents with one wrong reference each, which it must find, and on one in which all are right.
set -euo pipefail
cd "$(dirname "$0")/../.."
folder=$(mktemp -d)
trap 'rm -r "$folder"' EXIT
document=$folder/document.md
tried=0

# The line that declares `part`, and one that does not.
line=$(grep -n '^abbrev pub part ' crates/formats/specs/Part.antt | cut -d: -f1)
place=crates/formats/specs/Part.antt

# right TEXT: a document of this text passes.
right() {
    printf '%s\n' "$1" > "$document"
    host/docs/check.sh "$document" > "$folder/said" || { cat "$folder/said"; exit 1; }
    tried=$((tried + 1))
}

# wrong TEXT MESSAGE: a document of this text in its second line does not, and this is said of it.
wrong() {
    printf '# A heading\n%s\n' "$1" > "$document"
    if host/docs/check.sh "$document" > "$folder/said" || [ "$(cat "$folder/said")" != "$document:2: $2" ]; then
        printf '%s\nwas not met with\n%s\nbut with\n%s\n' "$1" "$2" "$(cat "$folder/said")"
        exit 1
    fi
    tried=$((tried + 1))
}

right "\`$place:$line\` | \`part\` and \`$place:$line\` \`part\`"
right '`crates/formats`, `formats/specs/Part.antt`, `crates/NAME/specs`, `tests_swapped.edit`, `formats::half::wipe`, `half::wipe`, `text::Text::word`'
right '[a](document.md), ![b](.), [c](https://example.org/none), [d](document.md#the-head), a lone ` and [e](#the-head)
## The head'

wrong "\`$place:$((line + 1))\` \`part\`" "$place:$((line + 1)): part is declared in line $line"
wrong "\`$place:$line\` | \`parted\`" "$place:$line: no parted stands there"
wrong "\`$place:$line\` | part" "$place:$line: no name stands beside it"
wrong "\`crates/formats/specs/Parts.antt:$line\` \`part\`" 'there is no file crates/formats/specs/Parts.antt'
wrong 'see `docs/TRUST.md` and `docs/NONE.md`' 'there is no docs/NONE.md'
wrong '`swapped_tests.edit`' 'no crate has a must-fail edit swapped_tests.edit'
wrong '`formats::half::wiped`' 'formats::half::wiped: its module declares no wiped'
wrong '`formats::nowhere::wipe`' 'formats::nowhere::wipe: there is no such module'
wrong '`text::Text::words`' 'text::Text::words: its module declares no words'
wrong '`text::Word::word`' 'text::Word::word: its module declares no Word'
wrong '`nowhere::wipe`' 'nowhere::wipe: there is no such module'
wrong '[a](none.md)' "there is no $folder/none.md"
wrong '`a` ![b](none.svg)' "there is no $folder/none.svg"
wrong '[a](#another-heading)' "$document has no heading for #another-heading"

# Without docs/TRUST.md no definition is listed.
if awk -v update=0 -v whole=1 -f host/docs/check.awk README.md > "$folder/said" || ! grep -q ' is not listed$' "$folder/said"; then
    printf 'unlisted definitions were met with\n%s\n' "$(cat "$folder/said")"
    exit 1
fi

# --update sets the lines, all of them, and leaves the rest.
printf 'a `b` `%s:1` | `part`, `%s:%d` `part`, `%s:2` `put` c `d\n' $place $place "$line" $place > "$document"
host/docs/check.sh --update "$document" > /dev/null
put=$(grep -n '^unfoldable pub put ' $place | cut -d: -f1)
[ "$(cat "$document")" = "a \`b\` \`$place:$line\` | \`part\`, \`$place:$line\` \`part\`, \`$place:$put\` \`put\` c \`d" ] || {
    echo "--update made $(cat "$document")"
    exit 1
}
echo "the check of the documents: $((tried + 2)) tried"
