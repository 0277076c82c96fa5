#!/usr/bin/env bash
# What an archive for C needs from outside: `memcpy` and `memset`, which the compiler calls to copy and to fill, and nothing else. A till
# without C's library brings these two. Exit code 1 where it needs more, with what that is, or where `nm` shows no need at all, as of an
# archive that is not ours.
set -euo pipefail
needed=$(nm -u "$1" | awk 'NF == 2 { print $2 }' | sort -u)
more=$(grep -vxE 'memcpy|memset' <<< "$needed" || true)
if [ -z "$needed" ] || [ -n "$more" ]; then
    echo "$1 needs from outside:" ${more:-nothing that nm shows} >&2
    exit 1
fi
echo "$1 needs from outside:" $needed
