#!/bin/sh
# Gets picorv32.v (by Claire Xenia Wolf, ISC licence), which Debian's source package nextpnr 0.4-1 has among its benchmarks, and sees that
# it is the file for which the bench was written. It needs apt-get, a network and no rights: the lists of the system are left alone.
#
# usage: fetch.sh FILE FOLDER    FILE is what it gets; FOLDER may keep what is needed on the way
set -e
sum=6ce4ce1113843b84619dcf2d57cc273526ed4d9ce62d4999ca3437dfdbd0e1b6
file=$1
mkdir -p "$2/state/lists/partial" "$2/cache/archives/partial"
folder=$(cd "$2" && pwd)

# The mirror that the system uses, if it is Debian.
mirror=$(sed -n 's/^URIs: *\([^ ]*debian\)\/*$/\1/p' /etc/apt/sources.list.d/debian.sources 2>/dev/null | head -n 1)
key=/usr/share/keyrings/debian-archive-keyring.gpg
echo "deb-src [signed-by=$key] ${mirror:-http://deb.debian.org/debian} bookworm main" >"$folder/sources.list"

apt() {
    apt-get -qq -o Dir::Etc::SourceList="$folder/sources.list" -o Dir::Etc::SourceParts=- -o Dir::State="$folder/state" \
        -o Dir::State::status=/dev/null -o Dir::Cache="$folder/cache" -o APT::Sandbox::User="$(id -un)" "$@"
}

archive=$folder/nextpnr_0.4.orig.tar.gz
if [ ! -f "$archive" ]; then
    apt update
    (cd "$folder" && apt source --download-only nextpnr=0.4-1 >/dev/null)
fi
tar xzf "$archive" -O nextpnr-nextpnr-0.4/ice40/benchmark/picorv32.v >"$folder/picorv32.v"
echo "$sum  $folder/picorv32.v" | sha256sum --check --quiet
mv "$folder/picorv32.v" "$file"
