#!/bin/sh
# Builds the library for this machine, where that is not x86-64: build/native/libpeerivolt.a.
#
# The archive that is shipped is for x86-64. The kit compiles what was proved for Linux on Arm too, at the same level; so
# what is timed there is the library's code, not the archive that is shipped. NATIVE_MACHINE names another machine than
# this one.
set -eu
cd "$(dirname "$0")/.."

fail() { echo "native: $1" >&2 && exit 1; }
machine=${NATIVE_MACHINE:-$(uname -m)}
case $machine in
aarch64 | x86_64) ;;
*) fail "the kit has no compiler for $machine" ;;
esac

# rt writes the archive where that for x86-64 would be; it is taken away, so that no one ships it.
mkdir -p build/native
(cd crates/peerivolt && rt lib --target "$machine-unknown-linux-gnu") >build/native/log 2>&1 || fail "$(tail -n 1 build/native/log)"
mv crates/peerivolt/out/libpeerivolt.a build/native/libpeerivolt.a
