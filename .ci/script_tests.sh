#!/usr/bin/env bash
# Tests of the script eql, with a stand-in for the toolchain's command rt: which crates it proves, in which order and which side by
# side, what it tells, and status 70 where the program can't be built; and when it takes the shipped program, and when it refuses it. It
# runs in folders that have the crates by name alone. With them release/renew, which ships a program, and .ci/shipped.sh are tested.
#
#     .ci/script_tests.sh
#
# Prints each run that differs. The last line is 'N passed, M failed', and the status is 0 where M is 0.
top=$(cd "$(dirname "$(readlink -f "$0")")/.." && pwd) || exit 2
room=$(readlink -f "$(mktemp -d)") || exit 2
trap 'rm -rf "$room"' EXIT
cd "$room" || exit 2
# shellcheck source=.ci/judging.sh
. "$top/.ci/judging.sh"

mkdir -p tree/release elsewhere tools toolchain
cp "$top/eql" "$top/crates.txt" "$top/VERSION" tree
cp "$top/release/shipped.sh" tree/release
sed -nE 's/^([a-z_0-9]+)( [^:]*)?:.*/\1/p' tree/crates.txt | while read -r crate; do mkdir -p "tree/crates/$crate/src"; done
: >tree/crates/eql/src/main.rt
# The script is called through a link to a link.
ln -s ../tree/eql elsewhere/middle
ln -s middle elsewhere/eql
# The tools that the script uses, without rt.
for tool in bash env awk cat chmod cp dirname find flock grep mkdir mktemp mv nice nproc readlink rm sed sha256sum sort stat touch \
    uname xargs xz; do
    ln -s "$(command -v "$tool")" tools
done
for tool in cmp comm cut git head sleep tail wc; do ln -s "$(command -v "$tool")" toolchain; done
# The stand-in notes what it is asked. It fails where a crate below isn't built, in the crate $RT_FAILS, and in each of $RT_MEETS
# unless it is asked for all of them within five seconds. In the crate $RT_LASTS it takes as long. `rt lib` leaves a library. `rt run`
# leaves a program that tells its words, and ends with the status of that program. With $RT_MAKES it is another program. That can't run
# where $CANT_RUN isn't empty.
cat >toolchain/rt <<'END'
#!/usr/bin/env bash
[ "$1" != version ] || { echo "$RT_IS"; exit; }
crate=${PWD##*/}
echo "$crate $*" >>"$RT_LOG"
for below in ../*/; do
    case $below in ../eql/ | "../$crate/") ;; *) [ -f "$below/out/rlib/stamp" ] || [ "$1" = run ] || exit 1 ;; esac
done
case " $RT_MEETS " in
    *" $crate "*)
        for it in $RT_MEETS; do
            for _ in {1..50}; do ! grep -qx "$it lib" "$RT_LOG" || continue 2; sleep 0.1; done
            exit 1
        done ;;
esac
[ "$crate" != "$RT_LASTS" ] || { sleep 5; echo "$crate lasted" >>"$RT_LOG"; }
[ "$crate" != "$RT_FAILS" ] || exit 1
mkdir -p out/rlib
echo built >out/rlib/stamp
[ "$1" = run ] || exit 0
cat >out/eql <<'PROGRAM'
#!/usr/bin/env bash
[ -z "${CANT_RUN-}" ] || { echo "$0: no such library" >&2; exit 1; }
[ "$#" -gt 0 ] || { echo 'usage: eql WORD..' >&2; exit 2; }
echo "ran in ${PWD##*/}: $*"
exit 9
PROGRAM
echo "# made by $RT_MAKES" >>out/eql
chmod +x out/eql
exit 2
END
chmod +x toolchain/rt
export RT_LOG=$room/log RT_FAILS='' RT_MEETS='' RT_LASTS='' RT_MAKES='' RT_IS='a kit' EQL_AT_ONCE=1
export HOME=$room/home
unset XDG_CACHE_HOME EQL_BUILD

# Runs the script with these words, and with these folders as the PATH; the time so far isn't compared.
words=(find 'two words' --x)
without=$room/tools with=$room/tools:$room/toolchain
run() { # NAME STATUS OUT ERR PATH
    want "$3" "$4"
    : >"$RT_LOG"
    (cd elsewhere && PATH=$5 ./eql "${words[@]}") >got.out 2>raw.err
    local status=$?
    sed -E 's/\([0-9]+ min [0-9]+ s so far\)/(TIME)/; s/[0-9a-f]{64}, /SUM, /; s/[0-9a-f]{64} by/SUM by/' raw.err >got.err
    judge "$1" "$status" "$2"
}
# Compares a text that a check writes to got.out.
same() { # NAME WANTED
    want "$2" ''
    : >got.err
    judge "$1" 0 0
}

# The crates that are proved, in their order: those that the program or one of these names in crates.txt, each behind those
# that it names.
declare -A place=()
named_by() { sed -nE "s/^$1( [^:]*)?://p" tree/crates.txt; }
(cd elsewhere && PATH=$with ./eql) >/dev/null 2>&1
sed -E 's/ .*//' "$RT_LOG" >order
count=$(wc -l <order)
while read -r crate; do place[$crate]=${#place[@]}; done <order
sort -u order | wc -l >got.out
same 'each crate is proved once' "$count"$'\n'
while read -r crate; do
    for below in $(named_by "$crate"); do
        [ ! -d "tree/crates/$below" ] || [ "${place[$below]:-none}" -lt "${place[$crate]}" ] || echo "$crate before $below"
    done
done <order >got.out 2>&1
same 'each crate comes behind those that it names' ''
while read -r crate; do named_by "$crate"; done <order >named
while read -r crate; do [ "$crate" = eql ] || grep -qw "$crate" named || echo "$crate"; done <order >got.out
same 'no crate is proved that the program does without' ''
cp "$RT_LOG" got.out
same 'libraries by rt lib, the program by rt run' "$(sed -E 's/$/ lib/; s/^eql lib$/eql run/' order)"$'\n'

unshipped='eql: no program is shipped with these sources'
told_of() { # HOW-MANY-CRATES
    echo "$unshipped"
    echo "eql: proving the $count crates of the program before its first run"
    head -n "$1" order | awk -v count="$count" '{ print "eql: " $1 " is proved, " NR " of " count " (TIME)" }'
}
told_of "$count" >all
ran=$'ran in elsewhere: find two words --x\n'
run 'it runs what is built, without the toolchain' 9 "$ran" '' "$without"
cp "$RT_LOG" got.out
same 'and asks nothing more' ''
rm -r tree/crates/eql/out
run 'it tells each crate as it is proved, and runs the program' 9 "$ran" @all "$with"
touch -d '+1 minute' tree/crates/eql_values/src/lib.rt
run 'a program older than a source, and no toolchain' 70 '' "$unshipped
eql: the program is older than $room/tree/crates/eql_values/src/lib.rt, and the toolchain's command 'rt' isn't on the PATH
" "$without"
{ told_of $((count - 1)); echo "eql: eql isn't proved; 'rt run' in $room/tree/crates/eql tells why"; } >last
RT_FAILS=eql run 'a program that fails where one was' 70 '' @last "$with"
(cd tree/crates/eql/out && ls -d eql*) >got.out
same 'the one from before stays' $'eql\n'
run 'it builds again after a change below' 9 "$ran" @all "$with"
rm tree/crates/eql_values/src/lib.rt
touch -d '+1 minute' tree/crates/eql_rows/src/lib.rt
run 'a change of a crate of tests is none of the program' 9 "$ran" '' "$without"
rm -r tree/crates/eql/out
second=$(sed -n 2p order)
{ told_of 1; echo "eql: $second isn't proved; 'rt lib' in $room/tree/crates/$second tells why"; } >one
RT_FAILS=$second run 'a crate that fails' 70 '' @one "$with"
RT_FAILS=eql run 'a program that fails' 70 '' @last "$with"

# The longest chain, by the bytes of code: of the crates that can be begun that one comes first which it goes on with.
rm -rf tree/crates/*/out
head -c 1000000 /dev/zero >tree/crates/eql_merge/src/long.rt
: >"$RT_LOG"
(cd elsewhere && PATH=$with ./eql) >/dev/null 2>&1
head -n 4 "$RT_LOG" >got.out
same 'the longest chain comes first' $'eql_digest lib\neql_values lib\neql_laws lib\neql_merge lib\n'
rm tree/crates/eql_merge/src/long.rt

# Crates side by side: the first and another one that stands on none.
first=$(head -n 1 order)
apart=$(tail -n +2 order | while read -r crate; do
    for below in $(named_by "$crate"); do [ ! -d "tree/crates/$below" ] || continue 2; done
    echo "$crate" && break
done)
{ told_of 0; echo "eql: $first isn't proved; 'rt lib' in $room/tree/crates/$first tells why"; } >none
anew() { rm -rf tree/crates/*/out; : >"$RT_LOG"; }
anew
RT_MEETS="$first $apart" run 'one after the other they do not meet' 70 '' @none "$with"
anew
(cd elsewhere && EQL_AT_ONCE=2 RT_MEETS="$first $apart" PATH=$with ./eql x) >got.out 2>/dev/null
same 'two crates side by side' $'ran in elsewhere: x\n'
sed -E 's/ .*//' "$RT_LOG" | sort >got.out
same 'each crate is proved once, side by side too' "$(sort order)"$'\n'
anew
EQL_AT_ONCE=2 RT_MEETS="$first $apart" RT_FAILS=$first RT_LASTS=$apart run 'of two crates side by side one fails' 70 '' @none "$with"
{ grep lasted "$RT_LOG"; find tree -name rooms; } >got.out
same 'the other one is ended, and nothing is left of it' ''
(unset EQL_AT_ONCE && cd elsewhere && PATH=$with ./eql x) >got.out 2>/dev/null
same 'as many as the machine can take' $'ran in elsewhere: x\n'
rm -r tree/crates/eql/out
EQL_AT_ONCE=none run 'no number of crates' 70 '' "$unshipped"$'\neql: proving the '"$count"$' crates of the program before its first run\neql: EQL_AT_ONCE isn\'t a number from 1 on: none\n' "$with"
run 'no toolchain' 70 '' "$unshipped"$'\neql: the program isn\'t built, and the toolchain\'s command \'rt\' isn\'t on the PATH\n' "$without"

# The shipped program. Few crates are enough here: two of the program, and one of tests.
mkdir -p small/crates/{eql_values,eql,eql_rows}/src small/crates/eql_values/{specs,proofs/laws} small/.ci small/release
cp "$top/eql" "$top/VERSION" small
cp "$top/release/renew" "$top/release/shipped.sh" small/release
cp "$top/.ci/shipped.sh" small/.ci
printf '%s\n' '# The crates.' 'eql_values: std' 'eql: eql_values' 'eql_rows: eql' >small/crates.txt
for it in eql_values/src/lib.rt eql_values/proofs/laws/Answers.antt eql/src/main.rt eql_rows/src/lib.rt; do echo "$it" >"small/crates/$it"; done
echo 'out/' >small/.gitignore
ln -sfn ../small/eql elsewhere/middle
version=$(cat "$top/VERSION")
built=small/crates/eql/out/eql packed=small/release/eql-x86_64-linux.xz own=small/release/out

# Runs a command in the small folder, by $path as the PATH. Neither the time so far nor a sha256 is compared.
within() { # NAME STATUS OUT ERR WORD..
    local name=$1 wanted=$2 status it
    want "$3" "$4"
    shift 4
    (cd small && PATH=${path:-$with} "$@") >raw.out 2>raw.err
    status=$?
    for it in out err; do
        sed -E 's/\([0-9]+ min [0-9]+ s so far\)/(TIME)/; s/[0-9a-f]{64}/SUM/g; s/[0-9]+ bytes/SIZE/' "raw.$it" >"got.$it"
    done
    judge "$name" "$status" "$wanted"
}
sum_of() { sha256sum "$@" | cut -d' ' -f1; }
built_two=$'eql: proving the 2 crates of the program before its first run\neql: eql_values is proved, 1 of 2 (TIME)\neql: eql is proved, 2 of 2 (TIME)\n'

# release/renew ships what is built.
within 'renew: no repository' 1 '' "renew: $room/small is no repository of git, so nothing tells which sources a clone has
" release/renew
(cd small && git init -q)
within 'renew: a source that git does not know' 1 '' $'renew: git doesn\'t know crates.txt: add it, or move it away\n' release/renew
(cd small && git add -A)
path=$without within 'renew: no toolchain' 1 '' $'renew: the toolchain\'s command \'rt\' isn\'t on the PATH\n' release/renew
manifest_told=$'release/MANIFEST: written; version '"$version"$', sources sha256 SUM (4 lines), toolchain a kit\n'
within 'renew: it builds, and tells what it wrote' 0 $'release/eql-x86_64-linux.xz: written, SIZE; program sha256 SUM\n'"$manifest_told" \
    "$built_two" release/renew
{
    echo "$(printf 'eql: eql_values\neql_values: std\n' | sum_of)  crates.txt"
    (cd small && sha256sum crates/eql/src/main.rt crates/eql_values/proofs/laws/Answers.antt crates/eql_values/src/lib.rt)
} >list
{
    printf 'version %s\nprogram sha256 %s\ntoolchain a kit\nsources sha256 %s\n' "$version" "$(sum_of "$built")" "$(sum_of list)"
    cat list
} >manifest
cp small/release/MANIFEST got.out
same 'renew: the manifest' @manifest
xz -dc "$packed" >got.out
same 'renew: the program' "@$built"
cp "$packed" first.xz
cp "$built" first.program
: >"$RT_LOG"
within 'renew: again' 0 $'release/eql-x86_64-linux.xz: as it was; program sha256 SUM\n'"$manifest_told" '' release/renew
{ cat "$RT_LOG"; cmp "$packed" first.xz; cmp small/release/MANIFEST manifest; } >got.out
same 'renew: nothing is built again, and nothing changes' ''
touch small/crates/eql_values/src
RT_MAKES=another within 'renew: another program of the same sources and toolchain' 1 '' \
    "$built_two"$'eql: what was built here, sha256 SUM, differs from what is shipped of the same sources, sha256 SUM by a kit
renew: the program of these sources and this toolchain was SUM, and is now SUM: find out why before '"$room/small/release/MANIFEST"$' is removed\n' \
    release/renew
RT_IS='a later kit' within 'renew: another program of a later toolchain' 0 $'release/eql-x86_64-linux.xz: written, SIZE; program sha256 SUM
release/MANIFEST: written; version '"$version"$', sources sha256 SUM (4 lines), toolchain a later kit\n' '' release/renew
CANT_RUN=1 within 'renew: no program' 1 '' \
    $'renew: what was built isn\'t the program: without words it ended with status 1 and told: eql: no such library\n' release/renew

# The gate's comparison.
shipped() { # NAME STATUS TOLD
    within "shipped: $1" "$2" '' "${3:+shipped: $3; release/renew renews it
}" .ci/shipped.sh crates/eql/out/eql 'a kit'
}
shipped 'another toolchain' 1 "release/MANIFEST names the toolchain 'a later kit', and not 'a kit'"
cp first.program "$built"
shipped 'another program' 1 "release/eql-x86_64-linux.xz holds another program than was built"
cp first.xz "$packed"
shipped 'the sum of another program' 1 'release/MANIFEST has the sha256 of another program than was built'
cp manifest small/release/MANIFEST
shipped 'all as it was built' 0 ''
echo 9.9.9 >small/VERSION
shipped 'another version' 1 "release/MANIFEST has the version $version, and the file VERSION another one"
echo "$version" >small/VERSION
sed '6s/main/mein/' manifest >small/release/MANIFEST
shipped 'another list' 1 "the list in release/MANIFEST isn't that of its digest"
cp manifest small/release/MANIFEST
mv "$packed" aside
shipped 'no program' 1 'no program is shipped with these sources'
mv aside "$packed"

# The script takes a program that was built here, and else the shipped one, without the toolchain. Folders of the checkout are looked at
# alone: nothing is written to the user's.
afresh() { rm -rf small/crates/*/out "$own" home cache; }
unpacked() { find "$own" -mindepth 1 ! -name 'fits-*' -printf '%f\n'; }
run_shipped() { run "$1" 9 "$ran" '' "$without"; }
run 'what was built here comes first' 9 "$ran" '' "$without"
find "$own" home >got.out 2>/dev/null
same 'and nothing is unpacked for it' ''
afresh
run_shipped 'the shipped program'
{ cmp "$own/eql" first.program; unpacked; find home small/crates -name out; } >got.out 2>/dev/null
same 'is unpacked once, into the checkout' $'eql\n'
# How many files are hashed at a start, by a stand-in for sha256sum: the program each time, the sources where one may have changed.
mkdir -p counting
printf '#!/usr/bin/env bash\necho "$@" >>"%s/hashed"\nexec "%s" "$@"\n' "$room" "$(command -v sha256sum)" >counting/sha256sum
chmod +x counting/sha256sum
hashed() { # NAME WANTED
    : >hashed
    (cd elsewhere && PATH=$room/counting:$without ./eql x) >/dev/null 2>&1
    sed "s|$room/||; s|.*/eql\$|PROGRAM|" hashed >got.out
    same "$1" "$2"
}
# The stamp has a time before the look, so that the second start hashes once more where the clone is a second old.
touch "$own"/fits-*
hashed 'the program alone is hashed' $'PROGRAM\n'
touch -d '-1 day' small/crates/eql/src/main.rt
: >hashed
run_shipped 'a source that was touched is hashed, and fits'
touch "$own"/fits-*
hashed 'and not again' $'PROGRAM\n'
echo x >>small/crates/eql_rows/src/lib.rt
sed -i 's/^eql_rows.*/eql_rows: eql eql_values # tests/' small/crates.txt
run_shipped 'a change of a crate of tests is none of the program, in crates.txt too'
printf '%s\n' '# The crates.' 'eql: eql_values' '' 'eql_values: std # more' >small/crates.txt
run_shipped 'neither is a comment, nor the order of the lines'

# What makes the script build, and the line that tells it.
differs() { # NAME TOLD
    run "$1" 70 '' "eql: $2"$'\neql: the program isn\'t built, and the toolchain\'s command \'rt\' isn\'t on the PATH\n' "$without"
}
proved_from='what the shipped program was proved from'
for it in eql/src/main.rt eql_values/proofs/laws/Answers.antt; do
    cp -p "small/crates/$it" aside
    printf y | dd of="small/crates/$it" bs=1 conv=notrunc status=none
    differs "one byte of $it" "crates/$it differs from $proved_from"
    touch -r aside "small/crates/$it"
    differs "one byte of $it, with the time of before" "crates/$it differs from $proved_from"
    cp -p aside "small/crates/$it"
done
run_shipped 'as it was again'
echo >small/crates/eql_values/specs/New.antt
differs 'a file more' "crates/eql_values/specs/New.antt is none of the files that the shipped program was proved from"
rm small/crates/eql_values/specs/New.antt
mv small/crates/eql_values/src/lib.rt aside
differs 'a file less' 'crates/eql_values/src/lib.rt is gone, which the shipped program was proved from'
mv aside small/crates/eql_values/src/lib.rt
sed -i 's/^eql_values.*/eql_values: core/' small/crates.txt
differs 'another line about a crate' "crates.txt differs from $proved_from"
run 'with the toolchain it is built' 9 "$ran" "eql: crates.txt differs from $proved_from
$built_two" "$with"
printf '%s\n' 'eql_values: std' 'eql: eql_values' 'eql_rows: eql' >small/crates.txt
afresh
sed '4s/.$/-/' manifest >small/release/MANIFEST
differs 'a digest of no list' 'the digest in release/MANIFEST is not that of its list'
cp manifest small/release/MANIFEST

# The machine.
mkdir -p other
printf '#!/usr/bin/env bash\necho "Linux aarch64"\n' >other/uname
chmod +x other/uname
run 'another machine' 70 '' "eql: this machine can't run the shipped program, which is for Linux on x86_64: uname says Linux aarch64
eql: the program isn't built, and the toolchain's command 'rt' isn't on the PATH
" "$room/other:$without"
rm -f other/*
CANT_RUN=1 differs 'a program that does not begin' \
    "this machine can't run the shipped program: without words it ended with status 1 and told: eql: no such library"
unpacked >got.out
same 'is not kept' ''
cp -r tools no_xz
rm no_xz/xz
run 'no xz' 70 '' "eql: this machine can't unpack the shipped program: xz isn't on the PATH
eql: the program isn't built, and the toolchain's command 'rt' isn't on the PATH
" "$room/no_xz"

# A shipped file that isn't what the manifest names isn't run, be it unpacked before or not.
refused() { # NAME
    run "$1" 70 '' "eql: release/eql-x86_64-linux.xz doesn't hold the program that release/MANIFEST names, and isn't run; EQL_BUILD=1 proves and builds one here
" "$with"
}
damage() { # BYTE
    cp first.xz "$packed"
    printf '\377' | dd of="$packed" bs=1 seek="$1" conv=notrunc status=none
}
for it in 0 7 60 $(($(stat -c %s first.xz) - 1)); do
    afresh
    damage "$it"
    refused "byte $it of the shipped file"
done
afresh
head -c 100 first.xz >"$packed"
refused 'the front of the shipped file'
sed 's/ran in/RAN in/' first.program | xz -9e >"$packed"
refused 'another program in the shipped file'
find small -name 'eql.*' >got.out
same 'and nothing is left of it' ''
cp first.xz "$packed"
run_shipped 'the file as it was'
damage 60
refused 'a byte of the shipped file, when it was unpacked before'
cp first.xz "$packed"
echo >>"$own/eql"
run_shipped 'a byte more of what was unpacked'
cmp "$own/eql" first.program >got.out
same 'it is unpacked anew' ''

# Unpacking: several at once, killed, without room, and where the checkout can't be written.
afresh
for it in {1..8}; do (cd elsewhere && PATH=$without ./eql x) >"at-once.$it" 2>&1 & done
wait
cat at-once.* >got.out
same 'eight first runs at once' "$(printf 'ran in elsewhere: x\n%.0s' {1..8})"$'\n'
unpacked >got.out
same 'leave one program' $'eql\n'
real_xz=$(command -v xz)
in_place_of_xz() { # WHAT IT DOES WITH A FILE AS ITS OUTPUT
    cat >other/xz <<END
#!/usr/bin/env bash
if [ "\$1" = -dc ] && [ -f /dev/stdout ]; then
    "$real_xz" "\$@" | "$(command -v head)" -c 100
    $1
fi
exec "$real_xz" "\$@"
END
    chmod +x other/xz
}
afresh
in_place_of_xz "kill -9 \$PPID"
{ (cd elsewhere && PATH=$room/other:$without exec ./eql x) >got.out 2>&1; } 2>/dev/null
find "$own" -name eql >>got.out
same 'a killed unpacking leaves no program' ''
find "$own" -name 'eql.*' -exec touch -d '-2 hours' {} +
run_shipped 'the run after it'
unpacked >got.out
same 'takes away what it left' $'eql\n'
afresh
in_place_of_xz 'exit 1'
run 'no room in the checkout, nor in the cache' 70 '' "eql: the shipped program can't be unpacked: $room/home/.cache/hulzaref/$(sum_of list) has no room for it
" "$room/other:$without"
find "$own" home -name 'eql*' >got.out
same 'leaves nothing' ''
rm -f other/*
afresh
: >"$own"
run_shipped 'a checkout that cannot be written'
find home -type f -name eql >got.out
same 'has it in the cache' "home/.cache/hulzaref/$(sum_of list)/eql"$'\n'
XDG_CACHE_HOME=$room/cache run_shipped 'and with XDG_CACHE_HOME there'
find cache -type f -name eql >got.out
same 'by its digest' "cache/hulzaref/$(sum_of list)/eql"$'\n'
rm -r home cache
: >home
run 'no place to unpack it to' 70 '' "eql: the shipped program can't be unpacked: $room/home/.cache/hulzaref/$(sum_of list) can't be written
" "$without"
rm -f home "$own"

# EQL_BUILD=1 proves and builds in any case.
afresh
EQL_BUILD=1 run 'EQL_BUILD=1: no toolchain' 70 '' $'eql: the program is to be built, and the toolchain\'s command \'rt\' isn\'t on the PATH\n' "$without"
EQL_BUILD=1 run 'EQL_BUILD=1: the same program' 9 "$ran" "$built_two" "$with"
EQL_BUILD=1 run 'EQL_BUILD=1: once more' 9 "$ran" "$built_two" "$with"
RT_MAKES=another EQL_BUILD=1 run 'EQL_BUILD=1: another program' 70 '' \
    "$built_two"'eql: what was built here, sha256 SUM, differs from what is shipped of the same sources, sha256 SUM by a kit
' "$with"

# --help and --version are words of the script, where they stand alone.
version_told() { # PROGRAM-LINE
    printf 'version %s\nsources sha256 SUM\n%s\n' "$version" "$1"
}
path=$without within '--version: built here' 0 "$(version_told 'program sha256 SUM, proved and built here')"$'\n' '' ./eql --version
rm -r small/crates/*/out
shipped_told=$(version_told 'program sha256 SUM, shipped, proved from these sources by a kit')
path=$without within '--version: shipped' 0 "$shipped_told"$'\n' '' ./eql --version
path=$without within '--version: a word of the program' 9 $'ran in small: --version find\n' '' ./eql --version find
(cd small && PATH=$without ./eql --help) 2>&1 | sed -E 's/[0-9a-f]{64}/SUM/' >raw.out
tail -n 3 raw.out >got.out
same '--help: ends with the version' "$shipped_told"$'\n'
for it in find check made --help --version EQL_BUILD=1 docs/LANGUAGE.md docs/OPERATIONS.md; do grep -qe "$it" raw.out || echo "$it"; done >got.out
same '--help: each command and page' ''
echo >>small/crates/eql/src/main.rt
path=$without within '--version: none' 0 \
    "$(version_told "program: none; crates/eql/src/main.rt differs from $proved_from, so the next run proves and builds one")"$'\n' '' ./eql --version

end
