#!/bin/sh
# Prints the command that runs a program for x86-64 on this machine, where one is needed and there is one: qemu-x86_64 of
# the system, over the C library of Debian's cross compiler or of the kit.
set -u

[ "$(uname -m)" != x86_64 ] || exit 0
tools=$(dirname "$(rt doc 2>/dev/null || echo /nowhere/page)")/toolchain
qemu=$(command -v qemu-x86_64) || exit 0
# The libraries are named too, so that loader and C library are of one version where the system has others for x86-64.
if [ -d /usr/x86_64-linux-gnu/lib ]; then
    echo "$qemu -L /usr/x86_64-linux-gnu -E LD_LIBRARY_PATH=/usr/x86_64-linux-gnu/lib"
elif [ -f "$tools/lib/ld-linux-x86-64.so.2" ]; then
    echo "$qemu $tools/lib/ld-linux-x86-64.so.2 --library-path $tools/lib"
fi
