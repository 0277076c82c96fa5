#!/usr/bin/env bash
# Every test: rt ci first, which proves every crate, tries the edits that the proofs must refuse and runs the programs; then the tests
# outside Rattle, on the library and the programs, which rt builds for them. Where all of them pass, rt ci's own last line,
# 'N passed, 0 failed', is printed once more at the end.
set -euo pipefail
cd "$(dirname "$0")/.."
said=$(mktemp)
trap 'rm -f "$said"' EXIT
rt ci | tee "$said"
# rt ci passes where an edit no longer fits its file; here that counts as a failure.
if grep -q '^rt: ok.* bad' "$said"; then
    echo 'must-fail edits that do not fit their files' >&2
    exit 1
fi
make --no-print-directory host-tests
tail -n 1 "$said"
