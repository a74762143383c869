#!/bin/sh
# Builds the framing of RTKLIB, from Debian's source package, for the benchmark's column of that name. The last line is
# the archive's path; or one that begins with SKIPPED and says why there is none. Everything stays below build/rtklib.
set -u
here=$PWD/build/rtklib
source=$here/src
archive=$here/librtcm.a

skip() { echo "SKIPPED rtklib: $1"; exit 0; }

[ ! -f "$archive" ] || { echo "$archive"; exit 0; }
command -v apt-get >/dev/null || skip "apt-get is not here"
mkdir -p "$here/lists/partial" "$source"
# The sources lie where the machine's own packages come from.
apt-get indextargets --format 'deb-src $(REPO_URI) $(CODENAME) $(COMPONENT)' 'Created-By: Packages' 2>/dev/null | sort -u >"$here/sources.list"
[ -s "$here/sources.list" ] || skip "apt-get knows no place of packages"
apt() { timeout 120 apt-get -q -o Dir::Etc::sourcelist="$here/sources.list" -o Dir::Etc::sourceparts=/dev/null -o Dir::State::lists="$here/lists" "$@"; }
cd "$here" || skip "build/rtklib cannot be made"
apt update >"$here/log" 2>&1 || skip "Debian's list of sources cannot be had"
apt source --download-only rtklib >>"$here/log" 2>&1 || skip "Debian's source package cannot be had"
tar xf rtklib_*.orig.tar.* -C "$source" --strip-components=2 --wildcards '*/src/rtcm.c' '*/src/rtkcmn.c' '*/src/rtklib.h' 2>>"$here/log" ||
    skip "the source package has another shape"
for name in rtcm rtkcmn; do
    gcc -O2 -w -ffunction-sections -fdata-sections -c "$source/$name.c" -o "$here/$name.o" 2>>"$here/log" || skip "it does not compile"
done
ar rcs "$archive" "$here/rtcm.o" "$here/rtkcmn.o" || skip "ar failed"
echo "$archive"
