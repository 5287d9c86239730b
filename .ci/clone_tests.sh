#!/usr/bin/env bash
# Tests what README promises of a fresh clone without the toolchain: the example's search and the script test, each within ten times the
# time that README gives it; and that a source or a shipped file of which one byte is changed is noticed. The PATH has nothing but
# coreutils, bash, git, xz, awk, cmp, diff, find, flock, grep, sed and xargs.
#
#     .ci/clone_tests.sh
#
# What is cloned is the last commit. Prints each run that differs. The last line is 'N passed, M failed', and the status is 0
# where M is 0.
top=$(cd "$(dirname "$(readlink -f "$0")")/.." && pwd) || exit 2
room=$(readlink -f "$(mktemp -d)") || exit 2
trap 'rm -rf "$room"' EXIT
cd "$room" || exit 2
# shellcheck source=.ci/judging.sh
. "$top/.ci/judging.sh"
export HOME=$room/home
unset XDG_CACHE_HOME EQL_BUILD EQL_TICKS

git clone -q "$top" clone || exit 2
mkdir tools
for tool in bash git xz awk cmp diff find flock grep sed xargs \
    b2sum base32 base64 basename basenc cat chgrp chmod chown cksum comm cp csplit cut date dd df dirname du echo env expand expr false \
    fmt fold head id install join link ln ls md5sum mkdir mkfifo mktemp mv nice nl nohup nproc numfmt od paste printenv printf pwd \
    readlink realpath rm rmdir seq sha1sum sha224sum sha256sum sha384sum sha512sum shuf sleep sort split stat stdbuf sync tac tail tee \
    test timeout touch tr true truncate tsort tty uname unexpand uniq unlink wc whoami yes; do
    ln -s "$(command -v "$tool" || echo "/bin/$tool")" tools
done

# Runs a command in the clone within so many seconds.
within() { # SECONDS NAME STATUS OUT ERR WORD..
    local most=$1 name=$2 wanted=$3 status
    want "$4" "$5"
    shift 5
    (cd clone && PATH=$room/tools timeout "$most" "$@") >got.out 2>got.err </dev/null
    status=$?
    [ "$status" != 124 ] || echo "$name: not done in $most seconds"
    judge "$name" "$status" "$wanted"
}
example=(./eql find --query examples/break-in.eql --fields examples/fields.json --slack 1m examples/gate-1.json examples/desk-7.json)
expected=(@clone/cases/break-in/stdout @clone/cases/break-in/stderr)
within 20 'the example' 0 "${expected[@]}" "${example[@]}"
within 20 'the example once more' 0 "${expected[@]}" "${example[@]}"

(cd clone && PATH=$room/tools timeout 1200 ./test) >got.out 2>got.err </dev/null
status=$?
want $'3 tests and more passed, none failed\n' ''
if [[ $(tail -n 1 got.out) =~ ^[0-9]{3,}\ passed,\ 0\ failed$ ]]; then cp want.out got.out; fi
judge 'the script test' "$status" 0

changed=crates/eql_values/src/lib.rt
cp -p "clone/$changed" aside
printf ' ' | dd of="clone/$changed" bs=1 seek=5 conv=notrunc status=none
within 20 'one byte of a source' 70 '' "eql: $changed differs from what the shipped program was proved from
eql: the program isn't built, and the toolchain's command 'rt' isn't on the PATH
" "${example[@]}"
cp -p aside "clone/$changed"
within 20 'the source as it was' 0 "${expected[@]}" "${example[@]}"

packed=clone/release/eql-x86_64-linux.xz
cp "$packed" aside
for place in 6 100 1000; do
    cp aside "$packed"
    byte=$(od -An -tu1 -j "$place" -N 1 "$packed")
    # shellcheck disable=SC2059
    printf "\\$(printf %o $((byte ^ 1)))" | dd of="$packed" bs=1 seek="$place" conv=notrunc status=none
    within 20 "byte $place of the shipped program" 70 '' \
        "eql: release/eql-x86_64-linux.xz doesn't hold the program that release/MANIFEST names, and isn't run; EQL_BUILD=1 proves and builds one here
" "${example[@]}"
    rm -rf clone/release/out
done

end
