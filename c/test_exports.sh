#!/bin/sh
# Holds the names that the shared object exports, and those that the archive defines for others, to the functions that
# the header declares: no more and no fewer.
#
# Usage: test_exports.sh HEADER SHARED [ARCHIVE]
set -u

work=$(mktemp -d)
trap 'rm -rf "$work"' EXIT
failed=0

sed -n 's/^\(uint32_t\|float\) \(pv_[a-z0-9_]*\)(.*/\2/p' "$1" | sort >"$work/declared"
if [ ! -s "$work/declared" ]; then
    echo "exports: no function is declared in $1" >&2
    exit 1
fi

compare() {
    if ! diff "$work/declared" "$work/defined" >"$work/diff"; then
        failed=1
        echo "exports: $1 differs from the header (<: declared, >: defined)" >&2
        cat "$work/diff" >&2
    fi
}

nm -D --defined-only "$2" | awk '$2 != "A" { sub(/@.*/, "", $3); print $3 }' | sort >"$work/defined"
compare "$2"
if [ $# -gt 2 ]; then
    nm -g --defined-only "$3" 2>/dev/null | awk 'NF == 3 { print $3 }' | sort >"$work/defined"
    compare "$3"
fi
echo "exports: $(wc -l <"$work/declared") names, $failed failed"
exit $failed
