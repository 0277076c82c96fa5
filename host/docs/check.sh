#!/usr/bin/env bash
# Checks what the documents refer to. Between backticks:
#
#   crates/NAME/specs/FILE.antt:LINE, and beside it a name   the name stands in that line, the first that declares it
#   crates/.., host/.., docs/.. and other files              they exist; NAME, CRATE, CALL, FILE and LABEL stand for any
#   NAME.edit                                                some crate has it among its must-fail edits
#   crate::module::name                                      the module's source has that function, type or constant
#
# and what [text](path) and ![text](path) point to, headings in documents (path#heading) included. Where all documents are
# checked, also that docs/TRUST.md lists every definition of crates/NAME/specs, but for the parts of examples.
#
# check.sh [DOCUMENT..]: exit code 1 at the first that is wrong, with its document and line. check.sh --update [DOCUMENT..]
# sets the line numbers anew. The documents are README.md and all of docs, where none is given; a document's path is one from
# the repository's root, or an absolute one.
set -euo pipefail
shopt -s nullglob
cd "$(dirname "$0")/../.."
update=0
if [ "${1-}" = --update ]; then
    update=1
    shift
fi
whole=0
if [ $# = 0 ]; then
    whole=1
    set -- README.md docs/*.md docs/*/*.md
fi
exec awk -v update=$update -v whole=$whole -f host/docs/check.awk "$@"
