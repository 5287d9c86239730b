#!/usr/bin/env bash
# Makes the Debian package of the shipped program, unpacks it into an empty folder, and runs the example from there. The options of the
# page of the manual and of the completions are compared with those of the program's usage. Where lintian is there, it has no word on
# the package. It needs dpkg-deb.
#
#     .ci/package_tests.sh
#
# Prints what differs. The last line is 'N passed, M failed', and the status is 0 where M is 0.
top=$(cd "$(dirname "$(readlink -f "$0")")/.." && pwd) || exit 2
room=$(readlink -f "$(mktemp -d)") || exit 2
trap 'rm -rf "$room"' EXIT
cd "$room" || exit 2
# shellcheck source=.ci/judging.sh
. "$top/.ci/judging.sh"
version=$(cat "$top/VERSION")
package=$room/hulzaref_${version}_amd64.deb

# Compares a text that a check writes to got.out.
same() { # NAME WANTED
    want "$2" ''
    : >got.err
    judge "$1" 0 0
}
"$top/packaging/deb" >got.out 2>&1
same 'the package is made' "$package"$'\n'
mkdir again root
sleep 1
(umask 077 && "$top/packaging/deb" again >/dev/null)
cmp "$package" "again/${package##*/}" >got.out 2>&1
same 'and has the same bytes when it is made again' ''
dpkg-deb -x "$package" root || exit 2
dpkg-deb -f "$package" Package Version Architecture >got.out
same 'its head' "Package: hulzaref
Version: $version
Architecture: amd64
"
dpkg-deb -c "$package" | awk '{ print $2 }' | sort -u >got.out
same 'its owner' $'root/root\n'
(cd root && find . -type f ! -path './usr/share/doc/hulzaref/examples/*' ! -path './usr/share/doc/hulzaref/cases/*' ! -path '*/lintian/*' |
    sort) >got.out
same 'its files' './usr/bin/eql
./usr/share/bash-completion/completions/eql
./usr/share/doc/hulzaref/changelog.Debian.gz
./usr/share/doc/hulzaref/changelog.gz
./usr/share/doc/hulzaref/copyright
./usr/share/man/man1/eql.1.gz
'
cmp root/usr/bin/eql <(xz -dc "$top/release/eql-x86_64-linux.xz") >got.out 2>&1
same 'its program is the shipped one' ''
for folder in examples cases; do diff -r "root/usr/share/doc/hulzaref/$folder" "$top/$folder"; done >got.out 2>&1
same 'its examples' ''
dpkg-deb -e "$package" control
(cd root && md5sum --quiet -c ../control/md5sums) >got.out 2>&1
same 'its sums' ''

# What the program wants of the system is what the package depends on: the C library, of this version or an older one.
LC_ALL=C ldd root/usr/bin/eql | awk '{ print $1 }' | grep -vE '^(linux-vdso|libc|libm)\.so|/ld-linux' >got.out
same 'it wants the C library alone' ''
{ grep -aoE 'GLIBC_2\.[0-9]+' root/usr/bin/eql; echo GLIBC_2.34; } | sort -uV | tail -n 1 >got.out
same 'of which version' "GLIBC_$(dpkg-deb -f "$package" Depends | sed -nE 's/^libc6 \(>= ([0-9.]+)\)$/\1/p')"$'\n'

# The example, as the page of the manual has it: in the folder of the examples, by a program on the PATH.
want "@$top/cases/break-in/stdout" "@$top/cases/break-in/stderr"
(
    cd root/usr/share/doc/hulzaref/examples &&
        PATH=$room/root/usr/bin eql find --query break-in.eql --fields fields.json --slack 1m gate-1.json desk-7.json
) >got.out 2>got.err
judge 'the example' $? 0
root/usr/share/doc/hulzaref/cases/run root/usr/bin/eql >got.out 2>got.err
status=$?
find "$top/cases" -name words | sed -n '$=' | sed 's/$/ passed, 0 failed/' >want.out
: >want.err
judge 'its cases' "$status" 0

# The options of the usage, of the page of the manual and of the completions.
root/usr/bin/eql 2>usage
options() { grep -oE -- '--[a-z]+' | sort -u; }
options <usage >usage.options
gzip -dc root/usr/share/man/man1/eql.1.gz | sed 's/\\-/-/g' >page
sed -n '/^\.SH OPTIONS/,/^\.SH FILES/p' page | grep -A 1 -x '\.TP' | options >got.out
same 'the options of the page' @usage.options
grep -c . usage.options >got.out
same 'there are nine' $'9\n'
grep -oE '^\.B [0-9]$' page | cut -d' ' -f2 >got.out
same 'the statuses of the page' "$(sed -nE 's/^\| ([0-9]) \|.*/\1/p' "$top/docs/OPERATIONS.md" | sort -u)"$'\n'
head -n 1 page >got.out
same 'the head of the page' ".TH EQL 1 \"$(sed -nE "s/^## \[$version\] - //p" "$top/CHANGELOG.md")\" \"Hulzaref $version\" \"User Commands\""$'\n'
# What the completions offer behind these words.
offered() { # WORD..
    bash -c '. "$1" && shift && COMP_WORDS=("$@") COMP_CWORD=$(($# - 1)) && _eql; printf "%s\n" "${COMPREPLY[@]}"' - \
        "$room/root/usr/share/bash-completion/completions/eql" eql "$@"
}
offered '' >got.out
same 'completions: commands' $'find\ncheck\nmade\n'
for command in find check made; do
    offered "$command" -- | sort >got.out
    same "completions: options of $command" "$(grep "^usage: eql $command " usage | options)"$'\n'
done
cd root/usr/share/doc/hulzaref/examples || exit 2
{
    offered find --query b
    offered find --query = b
    offered find --query break-in.eql --fields fields.json --slack 1m ga
    offered find --places --pl
    offered find --hands 1
} >"$room/got.out"
cd "$room" || exit 2
same 'completions: files, values, and no option twice' $'break-in.eql\nbreak-in.eql\ngate-1.json\n\n1\n10\n11\n12\n13\n14\n15\n16\n'

if command -v lintian >/dev/null; then
    lintian --allow-root --fail-on error,warning --tag-display-limit 0 "$package" >got.out 2>got.err
    status=$?
    want '' ''
    judge lintian "$status" 0
fi
end
