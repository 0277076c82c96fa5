#!/usr/bin/env bash
# Proves and builds a program or a static library: build.sh NAME writes target/bin/NAME or target/staticlib/libNAME.a. Says on standard
# error which crates it proves, one after another, since that takes some minutes the first time; whether there is anything to do is for
# rt to say.
set -euo pipefail
cd "$(dirname "$0")/.."
name=$1
if [ -f "crates/$name/src/main.rt" ]; then
    # rt runs it too, here on no input.
    folder=target/bin file=$name command=run
else
    folder=target/staticlib file=lib$name.a command='lib --cpu x86-64'
fi
mkdir -p "$folder"
# Those of its line in crates.txt that stand in crates/, lowest first as there, and itself.
crates=$(for crate in $(sed -nE "s/^$name( staticlib)?://p" crates.txt) "$name"; do
    if [ -d "crates/$crate" ]; then echo "$crate"; fi
done)
if ! (cd "crates/$name" && rt $command < /dev/null 2>&1) | tee "target/$name.log" | while read -r line; do
    case $line in
        'rt: chose '*) crate=${line##* } start=$SECONDS ;;
        'logic=proved '*)
            place=$(grep -nx "$crate" <<< "$crates" | cut -d: -f1)
            echo "proved $place of $(wc -l <<< "$crates"): $crate, $((SECONDS - start)) s" >&2
            ;;
    esac
done; then
    grep -vE '^(library|statements|axioms) ' "target/$name.log" | tail -20
    exit 1
fi
cp "crates/$name/out/$file" "$folder"
echo "built $folder/$file" >&2
