#!/bin/sh
# Tries the faults of faults.txt: the comparison must notice each of them, in the part that the fault names. Before that
# the reference without a fault must pass. Each is built as a shared object that stands in for the library, so that the
# comparison is linked once.
#
# Usage: faults.sh [WORD]   only the faults whose line has the word
set -eu

folder=$(cd "$(dirname "$0")" && pwd)
root=$(dirname "$folder")
only=${1:-}
build=$root/build/faults
compiler=${CC:-cc}
mkdir -p "$build/none"

# The files in which a fault can be planted.
files="reference.c signals.h"

# The names of the header over the reference in a folder.
stand_in() {
    "$compiler" -std=c11 -O2 -shared -fPIC -w -I"$root/include" -I"$root/c" "$root/c/stand_in.c" "$1/reference.c" \
        "$root/c/plain.c" "$build/plain_table.o" -o "$1/libpeerivolt.so"
}

# Plants $old -> $new in copies of the files, in a folder. Fails where it does not stand just once in all of them.
plant() {
    found=0
    for file in $files; do
        found=$((found + $(grep -c -F -e "$old" "$root/c/$file" || true)))
        OLD=$old NEW=$new awk '
            { place = index($0, ENVIRON["OLD"]) }
            place { $0 = substr($0, 1, place - 1) ENVIRON["NEW"] substr($0, place + length(ENVIRON["OLD"])) }
            { print }
        ' "$root/c/$file" >"$1/$file"
    done
    [ "$found" -eq 1 ]
}

"$compiler" -std=c11 -O2 -fPIC -w -DPLAIN_TABLE -I"$root/include" -c "$root/c/plain.c" -o "$build/plain_table.o"
for file in $files; do
    cp "$root/c/$file" "$build/none/$file"
done
stand_in "$build/none"

PEERIVOLT_ARCHIVE=$build/none/libpeerivolt.so
CARGO_TARGET_DIR=$build/cargo
export PEERIVOLT_ARCHIVE CARGO_TARGET_DIR
built=$("$folder/run.sh" build)
case $built in
/*) ;;
*)
    echo "$built"
    exit 0
    ;;
esac

compare() {
    LD_LIBRARY_PATH=$1 "$built" compare 1 ${2:+"$2"} >"$1/said" 2>&1
}

if [ -z "$only" ]; then
    if ! compare "$build/none"; then
        cat "$build/none/said"
        echo "faults: the reference without a fault does not pass" >&2
        exit 1
    fi
    echo "no fault: passes"
fi

# One fault in each line: what, part, old, new, with tabs between them.
awk -F ': ' '
    /^fault: / { what = substr($0, 8) }
    /^part: / { part = substr($0, 7) }
    /^old: / { old = substr($0, 6) }
    /^new: / { print what "\t" part "\t" old "\t" substr($0, 6) }
' "$folder/faults.txt" | grep -F -e "$only" >"$build/list" || true

tried=0
missed=0
tab=$(printf '\t')
while IFS="$tab" read -r what part old new; do
    tried=$((tried + 1))
    here=$build/$tried
    rm -rf "$here"
    mkdir -p "$here"
    if ! plant "$here"; then
        echo "MISSED, since what it changes does not stand once in c/: $what"
        missed=$((missed + 1))
        continue
    fi
    if stand_in "$here" && ! compare "$here" "$part" && grep -q "smallest input that differs" "$here/said"; then
        echo "noticed: $what"
    else
        echo "MISSED: $what"
        missed=$((missed + 1))
    fi
done <"$build/list"

echo "$tried faults, $missed missed"
[ "$tried" -gt 0 ] && [ "$missed" -eq 0 ]
