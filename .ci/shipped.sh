#!/usr/bin/env bash
# Compares the shipped program with the one that was just proved and built, byte for byte, and the list in release/MANIFEST with the
# sources at hand.
#
#     .ci/shipped.sh PROGRAM TOOLCHAIN
#
# TOOLCHAIN is the line by which the toolchain names itself. The first thing that differs is told, with the command that renews what
# is shipped, and the status is 1.
set -u
program=${1:?the built program} toolchain=${2:?the line of the toolchain}
top=$(cd "$(dirname "$(readlink -f "$0")")/.." && pwd) || exit 2
stop() { echo "shipped: $1; release/renew renews it" >&2; exit 1; }
# shellcheck source=release/shipped.sh
. "$top/release/shipped.sh" || exit 2

sources_fit || stop "$reason"
list=$(list_sources)
[ "$list" = "$(tail -n +5 "$manifest")" ] || stop "the list in release/MANIFEST isn't that of its digest"
cmp -s "$program" <(xz -dc "$packed") || stop "release/eql-x86_64-linux.xz holds another program than was built"
[ "$(sha256_of "$program")" = "$(said 'program sha256')" ] || stop "release/MANIFEST has the sha256 of another program than was built"
[ "$(said toolchain)" = "$toolchain" ] || stop "release/MANIFEST names the toolchain '$(said toolchain)', and not '$toolchain'"
[ "$(said version)" = "$(cat "$top/VERSION")" ] || stop "release/MANIFEST has the version $(said version), and the file VERSION another one"
