#!/bin/sh
# Builds the example program against an installed library, by the archive and by the shared object, and runs it.
#
# Usage: SONAME=.. VERSION=.. [EMULATOR=..] test_install.sh PREFIX EXAMPLE RECORDING FRAMES
set -u

prefix=$1
example=$2
recording=$3
frames=$4
work=$(mktemp -d)
trap 'rm -rf "$work"' EXIT
failed=0

check() {
    if [ "$2" != "$3" ]; then
        failed=$((failed + 1))
        printf 'install: %s: got "%s", expected "%s"\n' "$1" "$2" "$3" >&2
    fi
}

if command -v pkg-config >/dev/null 2>&1; then
    flags=$(PKG_CONFIG_PATH=$prefix/lib/pkgconfig pkg-config --cflags --libs peerivolt)
    check "pkg-config names the header's folder" "$(printf '%s' "$flags" | grep -c -e "-I$prefix/include")" 1
else
    echo "install: pkg-config is not here, so the installed file is only looked at"
    flags="-I$prefix/include -L$prefix/lib -lpeerivolt"
    check "the pkg-config file names the prefix" "$(sed -n 's/^prefix=//p' "$prefix/lib/pkgconfig/peerivolt.pc")" "$prefix"
fi

# The flags are a list of words.
# shellcheck disable=SC2086
${CC:-cc} -std=c11 -Wall -Wextra -Wpedantic -Werror "$example" $flags -Wl,-rpath,"$prefix/lib" -o "$work/shared"
check "status of building against the shared object" $? 0
${CC:-cc} -std=c11 "$example" -I"$prefix/include" "$prefix/lib/libpeerivolt.a" -o "$work/static"
check "status of building against the archive" $? 0

frames_of() { # PROGRAM; EMULATOR is a list of words
    # shellcheck disable=SC2086
    ${EMULATOR:-} "$work/$1" <"$recording" 2>/dev/null | wc -l
}

check "frames by the shared object" "$(frames_of shared)" "$frames"
check "frames by the archive" "$(frames_of static)" "$frames"
mv "$prefix/lib/$SONAME" "$prefix/lib/$SONAME.away"
check "frames without the shared object" "$(frames_of shared)" 0
mv "$prefix/lib/$SONAME.away" "$prefix/lib/$SONAME"
check "the version of the pkg-config file" "$(sed -n 's/^Version: //p' "$prefix/lib/pkgconfig/peerivolt.pc")" "$VERSION"

echo "install: 7 checks, $failed failed"
[ "$failed" -eq 0 ]
