#!/usr/bin/env bash
# Runs a built program over real files and streams, where cases/ has no form for it: over pipes and made files, beside faults, in
# several runs, with other hands and batches. Of each run the status, the output and the error output must be, byte for byte, what
# stands here, in refused_queries.tsv or in cases/.
#
#     .ci/program_tests.sh PROGRAM
#
# Prints each run that differs. Runs over checkpoints in older formats want python3, and are left out where it isn't there.
# The last line is 'N passed, M failed', and the status is 0 where M is 0.
program=$(readlink -f "${1:?the built program}")
[ -x "$program" ] || { echo "no program $1" >&2; exit 2; }
top=$(cd "$(dirname "$(readlink -f "$0")")/.." && pwd) || exit 2
room=$(mktemp -d) || exit 2
trap 'rm -rf "$room"' EXIT
cp -r "$top/examples/." "$room" && cd "$room" || exit 2
# shellcheck source=.ci/judging.sh
. "$top/.ci/judging.sh"

# Runs the program with these words, its input the file that `input` names where that is set.
expect() { # NAME STATUS OUT ERR WORD..
    local name=$1 status=$2
    want "$3" "$4"
    shift 4
    "$program" "$@" >got.out 2>got.err <"${input:-/dev/null}"
    judge "$name" $? "$status"
}

# The words of a search over three lines of any kind, and what it writes.
printf '%s' 'any where true' >any.eql
printf '{"@timestamp":%d}\n' 1 2 3 >three.json
any=(find --query any.eql --fields fields.json)
listing=$'1 [] 0:1\n2 [] 0:2\n3 [] 0:3\n'
report=$'shard 0: lines 3 accepted 3 late 0 rejected 0\n'

# Each search of cases/ that goes well once more, in batches of several sizes and with several hands: these change no byte.
cases=$top/cases
again() { # NAME OPTION..
    local name=$1 words
    shift
    mapfile -t words <"$cases/$name/words"
    cat "$cases/$name/stdout" >want.out 2>/dev/null
    cat "$cases/$name/stderr" >want.err 2>/dev/null
    (cd "$cases/$name" && exec "$program" "${words[0]}" "$@" "${words[@]:1}") >got.out 2>got.err </dev/null
    judge "case $name $*" $? 0
}
for folder in "$cases"/*/; do
    name=$(basename "$folder")
    read -r command <"$folder/words"
    if [ "$command" != find ] || [ -f "$folder/status" ] || grep -qE '^--(batch|hands)' "$folder/words"; then continue; fi
    for more in '--hands 0' '--batch 1 --hands 0' '--batch 1 --hands 2' '--batch 1 --hands 4' '--batch 4096 --hands 3'; do
        # shellcheck disable=SC2086
        again "$name" $more
    done
done
for hands in 0 1 2 4 16; do
    for batch in 1 7 256; do again break-in-places --batch "$batch" --hands "$hands"; done
done
for hands in 0 4; do again line-late --batch 3 --hands "$hands"; done

# The canonical texts of the example and of the ten queries find what these do.
shards=(gate-1.json desk-7.json)
break_in=(find --query break-in.eql --fields fields.json)
for query in break-in.eql queries/*.eql; do
    name=$(basename "$query" .eql)
    "$program" check --query "$query" --fields fields.json >canonical.eql 2>got.err
    expect "$name, its canonical text" 0 "@$cases/$name/stdout" "@$cases/$name/stderr" \
        find --slack=60s --fields=fields.json --query=canonical.eql -- "${shards[@]}"
done

# Streams: the query, the mapping or a shard comes through a pipe or from the input.
through() { # NAME INPUT WORD..
    local name=$1 from=$2
    want "$listing" "$report"
    shift 2
    # shellcheck disable=SC2002
    cat "$from" | "$program" "$@" >got.out 2>got.err
    judge "$name through a pipe" $? 0
}
through 'a query' any.eql find --query /dev/stdin --fields fields.json three.json
through 'a mapping' fields.json find --query any.eql --fields /dev/stdin three.json
through 'a shard' three.json "${any[@]}" /dev/stdin
input=desk-7.json expect 'a shard from the input' 0 "@$cases/break-in/stdout" "@$cases/break-in/stderr" \
    "${break_in[@]}" --slack 1m gate-1.json /dev/stdin

# As many shards as may be, none of them with a line.
: >empty
for it in $(seq 0 255); do echo "shard $it: lines 0 accepted 0 late 0 rejected 0"; done >reports
mapfile -t most < <(yes empty | head -n 256)
expect '256 shards' 0 '' @reports "${any[@]}" "${most[@]}"

# Lines at the limit of their length.
line_of() { printf '{"@timestamp":1,"x":"%s"}\n' "$(head -c "$1" /dev/zero | tr '\0' x)"; }
{ line_of 1048553; line_of 1048554; } >long.json
expect 'lines of 1 MiB and of a byte more' 0 $'1 [] 0:1\n' $'shard 0: lines 2 accepted 1 late 0 rejected 1 first 2 Long\n' \
    "${any[@]}" long.json

# A search over events that the program makes itself: four lines on what it found, and no report.
for hands in 0 1 2 4 16; do
    expect "made 300000, $hands hands" 0 \
        $'events 300000\nmatches 100000\nfirst 1 ["u0"] 0:1 0:26 0:51\nlast 100000 ["u99"] 3:74950 3:74975 3:75000\n' '' \
        made --hands "$hands" 300000
done

# Status 1: a file isn't there.
expect 'a name that would steer a terminal' 1 '' $'no file a\\u{1b}[2J\\nb\n' "${any[@]}" $'a\e[2J\nb'

# Status 2: the words are no command.
no_command() { expect "no command: $*" 2 '' "@$cases/usage/stderr" "$@"; }
no_command
no_command seek --query any.eql --fields fields.json three.json
no_command "${any[@]}"
no_command find --query any.eql three.json
no_command "${any[@]}" --query any.eql three.json
no_command "${any[@]}" three.json --places
no_command "${any[@]}" --places --places three.json
no_command "${any[@]}" --batch 0 three.json
no_command "${any[@]}" --batch 4097 three.json
no_command "${any[@]}" --hands 17 three.json
no_command "${any[@]}" --slack 5 three.json
no_command "${any[@]}" --slack 36501d three.json
no_command "${any[@]}" --tiebreaker= three.json
no_command "${any[@]}" --slack 1s --checkpoint c three.json
no_command "${any[@]}" --checkpoint c --every 5 three.json
no_command "${any[@]}" -
no_command "${any[@]}" $'\xff'
no_command "${any[@]}" "${most[@]}" empty
no_command check --query any.eql --fields fields.json three.json

# Status 3: each rule that a query or a mapping may break.
refuse() { # TOLD QUERY-FILE MAPPING-FILE
    expect "refused: $1" 3 '' "$1"$'\n' find --query "$2" --fields "$3" three.json
}
while IFS=$'\t' read -r told query; do
    printf '%s' "$query" >bad.eql
    refuse "$told" bad.eql fields.json
    expect "check refuses: $told" 3 '' "$told"$'\n' check --query bad.eql --fields fields.json
done <"$top/.ci/refused_queries.tsv"
{ cat any.eql; head -c 65522 /dev/zero | tr '\0' ' '; } >longest.eql
expect 'a query of 65,536 bytes' 0 "$listing" "$report" find --query longest.eql --fields fields.json three.json
{ cat longest.eql; printf ' '; } >too-long.eql
refuse 'lex: TooLong' too-long.eql fields.json
{ printf 'any where '; for it in $(seq 65); do printf 'not '; done; printf 'true'; } >deep.eql
refuse 'parse: TooDeep at 266' deep.eql fields.json
names() { printf '{'; for it in $(seq "$1"); do printf '"f%d":"long",' "$it"; done; printf '"g":"long"}'; }
names 1023 >most.json
expect 'a mapping of 1,024 names' 0 "$listing" "$report" find --query any.eql --fields most.json three.json
names 1024 >too-many.json
refuse 'mapping: MapMany' any.eql too-many.json
{ printf '{}'; head -c 4194303 /dev/zero | tr '\0' ' '; } >too-long.json
refuse 'mapping: MapLong' any.eql too-long.json
{ printf 'any where f1 > 0'; for it in $(seq 2 65); do printf ' or f%d > 0' "$it"; done; } >fields-65.eql
refuse 'check: ManyFields 65' fields-65.eql most.json

# Checkpoints: a run keeps its state in two files, and a later run goes on from there. The first run keeps a cut after five lines
# and one after ten, since it has no hands: with hands rounds read other numbers of lines. Its disk is tried as it is, byte for byte as
# make_disk.py writes it, and in the formats that older versions left.
events() { printf '{"@timestamp":%s,"event":{"category":"process"},"user":{"name":"%s"},"process":{"name":"%s"}}\n' "$@"; }
events 1000 root attrib 2000 root attrib 3000 elkbee bash 4000 root bash 5000 root bash 6000 elkbee attrib 7000 root attrib \
    8000 elkbee bash 9000 root cat 10000 elkbee cat 11000 root cat >eleven.json
head -n 5 eleven.json >five.json
tr '\n' ' ' <eleven.json >spaced.json
printf '%s' 'sequence by user.name [process where process.name == "attrib"] [process where process.name == "bash"]' \
    ' [process where process.name == "cat"]' >kept.eql
{ cat kept.eql; printf ' | head 1'; } >piped.eql
printf '{"destination.ip":"ip","destination.port":"long","event.type":"keyword","file.pid":"long","host.id":"keyword",%s}' \
    '"process.args_count":"long","process.name":"keyword","process.pid":"long","user.id":"keyword","user.name":"keyword"' >kept.json
kept=(find --query kept.eql --fields kept.json --slack 0ms)
rest=$'2 ["elkbee"] 0:6 0:8 0:10\n'
both=$'1 ["root"] 0:2 0:4 0:9\n'"$rest"
eleven=$'shard 0: lines 11 accepted 11 late 0 rejected 0\n'
resume() { # NAME DISK WORD..
    local name=$1 disk=$2
    shift 2
    expect "checkpoint: $name" 0 "$rest" "$eleven" "${kept[@]}" --checkpoint "$disk" --every 5 "$@" eleven.json
}
expect 'checkpoint: a first run' 0 "$both" "$eleven" "${kept[@]}" --batch 1 --hands 0 --checkpoint=c --every=5 eleven.json
cp c.0 first.0
cp c.1 first.1
resume 'a later run' c --batch 7 --hands 3
resume 'another batch' c --batch 4096
expect 'checkpoint: nothing to keep' 0 '' $'shard 0: lines 0 accepted 0 late 0 rejected 0\n' "${kept[@]}" --checkpoint new --every 1 empty
want '' ''
cmp c.0 first.0 >got.out 2>got.err && cmp c.1 first.1 >>got.out 2>>got.err
judge 'checkpoint: no cut is kept at the end' $? 0
# Which cuts a run with hands keeps depends on what they read meanwhile. A later run lists an end of the listing all the same.
for hands in 1 2 4; do
    expect "checkpoint: a first run, $hands hands" 0 "$both" "$eleven" \
        "${kept[@]}" --batch 1 --hands "$hands" --checkpoint "by-$hands" --every 1 eleven.json
    for later in 0 3; do
        cp "by-$hands.0" again.0 && cp "by-$hands.1" again.1
        "$program" "${kept[@]}" --batch 2 --hands "$later" --checkpoint again --every 1 eleven.json >got.out 2>got.err
        status=$?
        want '' "$eleven"
        case $(cat got.out) in
            "${both%$'\n'}" | "${rest%$'\n'}") cp got.out want.out ;;
        esac
        judge "checkpoint: $later hands go on from $hands" "$status" 0
    done
done
places=$'2 ["elkbee"] 0:6@506 0:8@712 0:10@913\n'
for format in 1 2 3 4; do
    wants python3 2 || continue
    "$top/.ci/make_disk.py" "$format" "old-$format" "$top/.ci/old_cuts.json" eleven.json
    resume "format $format" "old-$format" --batch 7
    expect "checkpoint: format $format, places" 0 "$places" "$eleven" "${kept[@]}" --places --checkpoint "old-$format" --every 9 eleven.json
done
if wants python3; then
    want '' ''
    cmp first.0 old-4.0 >got.out 2>got.err && cmp first.1 old-4.1 >>got.out 2>>got.err
    judge 'checkpoint: the bytes of both cuts' $? 0
fi

# Status 7: each reason for which a checkpoint is refused. The disk stays as it is; a file that isn't there is made, and stays empty.
not_resumed() { # TOLD DISK WORD..
    local told=$1 disk=$2
    shift 2
    expect "checkpoint: $told" 7 '' "checkpoint: $told"$'\n' find --checkpoint "$disk" --every 5 "$@"
}
words=(--query kept.eql --fields kept.json --slack 0ms)
printf '\1\1\0\0\0\0\0\0\0\1\0\0\0\0\0\0\0\0' >damaged.0
not_resumed 'Damaged area 0 at 0' damaged "${words[@]}" eleven.json
{ head -c 30 c.1; } >damaged.1
not_resumed 'Damaged area 1 at 0' damaged "${words[@]}" eleven.json
# A log, the one that was rotated before it, and the log's name for the checkpoint, in as many rounds as lines.
often=(--batch 1 --hands 0)
cp eleven.json eve.json
cp five.json eve.json.1
not_resumed 'Foreign area 1' eve.json "${words[@]}" "${often[@]}" eve.json
want '' ''
cmp five.json eve.json.1 >got.out 2>got.err && [ -f eve.json.0 ] && [ ! -s eve.json.0 ]
judge "checkpoint: another program's second file stays" $? 0
cp five.json eve.json.0
not_resumed 'Foreign area 0' eve.json "${words[@]}" "${often[@]}" eve.json
cp first.0 beside.0
cp five.json beside.1
not_resumed 'Foreign area 1' beside "${words[@]}" "${often[@]}" eleven.json
want '' ''
{ cmp five.json eve.json.0 && cmp five.json eve.json.1 && cmp first.0 beside.0 && cmp five.json beside.1; } >got.out 2>got.err
judge "checkpoint: another program's files stay, and a cut beside one" $? 0
: >empties.0
printf '\0%s' "$(cat five.json)" >empties.1
expect 'checkpoint: an empty file, and one that begins with 0' 0 "$both" "$eleven" \
    "${kept[@]}" "${often[@]}" --checkpoint empties --every 5 eleven.json
not_resumed 'Differs query' c --query piped.eql --fields kept.json --slack 0ms eleven.json
not_resumed 'Differs mapping' c --query kept.eql --fields fields.json --slack 0ms eleven.json
not_resumed 'Differs tiebreaker' c "${words[@]}" --tiebreaker event.sequence eleven.json
not_resumed 'Differs slack' c --query kept.eql --fields kept.json --slack 1ms eleven.json
not_resumed 'Differs shards' c "${words[@]}" eleven.json empty
sed 's/"listed": 1/"listed": 2/' "$top/.ci/old_cuts.json" >unfit.json
if wants python3; then
    "$top/.ci/make_disk.py" 4 unfit unfit.json eleven.json
    not_resumed Unfit unfit "${words[@]}" eleven.json
fi
not_resumed 'Short shard 0 offset 1015 had 506' c "${words[@]}" five.json
if wants python3; then not_resumed 'NoLine shard 0 line 6' old-1 "${words[@]}" spaced.json; fi
# Other bytes than those that were read. Those behind them may be others, and a shard that is short is told as that.
sed '1s/root/rood/' eleven.json >other.json
sed '11s/cat/vi/' eleven.json >other-behind.json
{ tail -n +6 eleven.json; events 12000 root attrib 13000 elkbee bash 14000 root bash 15000 root cat 16000 elkbee cat; } >rotated.json
events 21000 mia attrib 22000 mia attrib 23000 elkbee bash 24000 mia bash 25000 mia bash 26000 elkbee attrib 27000 mia attrib \
    28000 elkbee bash 29000 mia cat 30000 elkbee cat 31000 mia cat >another.json
for other in other another rotated spaced; do
    for hands in 0 3; do not_resumed 'Differs shard 0' c "${words[@]}" --hands "$hands" "$other.json"; done
done
input=other.json not_resumed 'Differs shard 0' c "${words[@]}" /dev/stdin
not_resumed 'Differs query' c --query piped.eql --fields kept.json --slack 0ms other.json
expect 'checkpoint: other bytes behind those that were read' 0 "$rest" "$eleven" \
    "${kept[@]}" --checkpoint c --every 5 other-behind.json
# A cut of an older format has no digests. The next cut has them.
for format in 1 2 3; do
    wants python3 4 || continue
    cp "old-$format.0" renewed.0 && cp "old-$format.1" renewed.1
    expect "checkpoint: format $format, other bytes" 0 "$rest" "$eleven" "${kept[@]}" --checkpoint renewed --every 9 other.json
    expect "checkpoint: format $format, a new cut" 0 "$rest" "$eleven" "${kept[@]}" "${often[@]}" --checkpoint renewed --every 1 eleven.json
    expect "checkpoint: format $format, a run from the new cut" 0 '' "$eleven" "${kept[@]}" --checkpoint renewed --every 9 eleven.json
    not_resumed 'Differs shard 0' renewed "${words[@]}" other.json
done
# A bit of the newer cut that was turned round, in its mark and in its checksum. The older cut serves once this file is moved away.
for place in 412 870; do
    cp c.0 turned.0
    cp c.1 turned.1
    printf %b "\\x$(printf %02x $((0x$(od -An -tx1 -j "$place" -N 1 c.1 | tr -d ' ') ^ 1)))" |
        dd of=turned.1 bs=1 seek="$place" conv=notrunc status=none
    not_resumed 'Damaged area 1 at 846' turned "${words[@]}" eleven.json
done
rm turned.1
expect 'checkpoint: the older cut, once the newer one is moved away' 0 "$both" "$eleven" \
    "${kept[@]}" --checkpoint turned --every 9 eleven.json
events 1000 root vi >one.json
expect 'checkpoint: two shards' 0 $'1 ["root"] 1:2 1:4 1:9\n2 ["elkbee"] 1:6 1:8 1:10\n' \
    $'shard 0: lines 1 accepted 1 late 0 rejected 0\nshard 1: lines 11 accepted 11 late 0 rejected 0\n' \
    "${kept[@]}" --batch 1 --hands 0 --checkpoint two --every 5 one.json eleven.json
{ cat one.json; printf ' '; } >grown.json
not_resumed 'Grown shard 0' two "${words[@]}" grown.json eleven.json
# Two shards of which some differ: the first is told. One that is read to its end is told as another one before it is told as grown.
not_resumed 'Differs shard 0' two "${words[@]}" eleven.json one.json
not_resumed 'Differs shard 1' two "${words[@]}" one.json other.json
not_resumed 'Grown shard 0' two "${words[@]}" grown.json other.json
sed 's/root/rood/' grown.json >other-grown.json
not_resumed 'Differs shard 0' two "${words[@]}" other-grown.json other.json
not_resumed 'Short shard 0 offset 98 had 0' two "${words[@]}" empty other.json
# Its disk is held: a lock of another process, another run, and files that the run reads too or that are one, by whatever links.
flock c.0 "$program" "${kept[@]}" --checkpoint c --every 5 eleven.json >got.out 2>got.err
status=$?
want '' $'checkpoint: Busy\n'
judge 'checkpoint: a lock of another process' "$status" 7
mkfifo slow
"$program" "${kept[@]}" "${often[@]}" --checkpoint shared --every 5 slow >slow.out 2>slow.err &
slow=$!
exec 8>slow
head -n 10 eleven.json >&8
for ((tries = 0; tries < 100; tries++)); do
    if [ -s shared.0 ] || [ -s shared.1 ]; then break; fi
    sleep 0.1
done
not_resumed Busy shared "${words[@]}" eleven.json
exec 8>&-
wait "$slow"
status=$?
mv slow.out got.out && mv slow.err got.err
want "$both" $'shard 0: lines 10 accepted 10 late 0 rejected 0\n'
judge 'checkpoint: the run that another one found busy' "$status" 0
ln eleven.json read.0
not_resumed 'Foreign area 0' read "${words[@]}" eleven.json
ln -s eleven.json read-too.1
not_resumed 'Foreign area 1' read-too "${words[@]}" eleven.json
ln kept.eql asked.0
not_resumed 'Foreign area 0' asked "${words[@]}" eleven.json
cp first.0 twice.0
ln -s twice.0 twice.1
not_resumed 'Foreign area 1' twice "${words[@]}" eleven.json
want '' ''
{ head -n 5 eleven.json | cmp - five.json && cmp first.0 twice.0; } >got.out 2>got.err
judge 'checkpoint: files that serve for something else stay' $? 0
expect 'checkpoint: one that is held, of a run without' 0 "$both" "$eleven" "${kept[@]}" eleven.json
want '' ''
cmp c.0 first.0 >got.out 2>got.err && cmp c.1 first.1 >>got.out 2>>got.err
judge 'checkpoint: a refused run changes nothing' $? 0

# An area that is one file with the query, the mapping, a shard or the other area, by a hard or a symbolic link, is told by its number,
# and each file stays as it is in the folder `was`. A file without a byte, or that begins with 0 or 1, would else be taken for an area.
: >blank.json
printf '\0%s' "$(cat five.json)" >zero.json
mkdir was
cp kept.eql kept.json blank.json zero.json eleven.json was
one_file() { # AREA DISK SHARD..
    local area=$1 disk=$2 file status
    shift 2
    want '' "checkpoint: Foreign area $area"$'\n'
    "$program" "${kept[@]}" "${often[@]}" --checkpoint "$disk" --every 1 "$@" >got.out 2>got.err <"${input:-/dev/null}"
    status=$?
    for file in was/*; do cmp "${file#was/}" "$file" || cp "$file" .; done >>got.out 2>>got.err
    judge "checkpoint: an area that is one file: $disk.$area" "$status" 7
}
for kind in hard symbolic; do
    for area in 0 1; do
        for file in kept.eql kept.json blank.json zero.json; do
            disk=$kind-$area-$file
            if [ "$kind" = hard ]; then ln "$file" "$disk.$area"; else ln -s "$file" "$disk.$area"; fi
            one_file "$area" "$disk" blank.json zero.json eleven.json
        done
    done
done
ln zero.json input.0
input=zero.json one_file 0 input eleven.json /dev/stdin
: >pair-hard.0 && ln pair-hard.0 pair-hard.1
: >pair-symbolic.0 && ln -s pair-symbolic.0 pair-symbolic.1
ln -s pair-back.1 pair-back.0 && cp c.1 pair-back.1
cp c.1 pair-cut.0 && ln pair-cut.0 pair-cut.1
cp pair-{hard,symbolic,back,cut}.? was
for disk in pair-hard pair-symbolic pair-back pair-cut; do one_file 1 "$disk" eleven.json; done
ln -s pair-new.0 pair-new.1
: >was/pair-new.0
one_file 1 pair-new eleven.json

# A second run with the checkpoint of one that is at work is refused, and changes nothing. The first one waits behind its last cut at a
# shard that is a pipe, and goes on. One that was killed keeps nobody out.
mkfifo slow.json
begin_slow() { # DISK
    exec 7<>slow.json
    "$program" "${kept[@]}" "${often[@]}" --checkpoint "$1" --every 5 slow.json >first.out 2>first.err 7>&- &
    process=$!
    cat eleven.json >&7
    for _ in {1..400}; do
        [ "$(wc -l <first.out)" -lt 2 ] || break
        sleep 0.05
    done
}
begin_slow busy
cp busy.0 held.0 && cp busy.1 held.1
for hands in 0 2; do not_resumed Busy busy "${words[@]}" --hands "$hands" eleven.json; done
want '' ''
cmp busy.0 held.0 >got.out 2>got.err && cmp busy.1 held.1 >>got.out 2>>got.err
judge 'checkpoint: the files of a run at work stay' $? 0
expect 'a run without a checkpoint beside one with it' 0 "$both" "$eleven" "${kept[@]}" eleven.json
expect 'a run with another checkpoint' 0 "$both" "$eleven" "${kept[@]}" --checkpoint not-busy --every 5 eleven.json
exec 7>&-
wait "$process"
status=$?
want "$both" "$eleven"
cp first.out got.out && cp first.err got.err
judge 'checkpoint: the first of two runs goes on' "$status" 0
resume 'after a run that ended' busy
begin_slow killed
kill -KILL "$process"
wait "$process" 2>/dev/null
exec 7>&-
resume 'after a run that was killed' killed

# A listing that is no file and can't be kept by a disk, and files that have no name any more or may not be read.
want "$both" "$eleven"
"$program" "${kept[@]}" "${often[@]}" --checkpoint piped --every 1 eleven.json 2>got.err | cat >got.out
judge 'checkpoint: a listing through a pipe' "${PIPESTATUS[0]}" 0
want '' "$eleven"
: >got.out
"$program" "${kept[@]}" "${often[@]}" --checkpoint dropped --every 1 eleven.json >/dev/null 2>got.err
judge 'checkpoint: a listing that is dropped' $? 0
want "$both" "$eleven"
exec 8>gone.out
exec 9<gone.out
rm gone.out
"$program" "${kept[@]}" "${often[@]}" --checkpoint gone --every 1 eleven.json >&8 2>got.err
status=$?
cat <&9 >got.out
exec 8>&- 9<&-
judge 'checkpoint: a listing in a file that was removed' "$status" 0
: >unread.out
chmod 200 unread.out
"$program" "${kept[@]}" "${often[@]}" --checkpoint unread --every 1 eleven.json >unread.out 2>got.err
status=$?
chmod 600 unread.out
cp unread.out got.out
judge 'checkpoint: a listing that may not be read' "$status" 0

# Status 6: the disk's files can't be opened, read or written. Status 9: its generations come to their end. What was found before
# stays written.
no_disk() { # NAME DISK
    expect "checkpoint disk: $1" 6 '' $'checkpoint disk fault\n' "${kept[@]}" --batch 1 --hands 0 --checkpoint "$2" --every 1 eleven.json
}
mkdir blocked.0 blocked-too.1
no_disk 'a folder in place of the first file' blocked
no_disk 'a folder in place of the second file' blocked-too
no_disk 'a path through a file' eleven.json/c
ln -s /dev/full full.0
no_disk 'a device without room' full
if wants python3; then
    cp old-4.1 last.1
    printf '\0\0\0\0\0\0\0\200' | dd of=last.1 bs=1 seek=1 conv=notrunc status=none
    expect 'checkpoint: the last generation' 9 "$rest" $'limit: generation\n' \
        "${kept[@]}" --batch 1 --hands 0 --checkpoint last --every 1 eleven.json
fi

# Status 4: a folder opens and fails at its first read.
mkdir folder
for hands in 0 1 4; do
    expect "a folder as a shard, $hands hands" 4 '' $'read fault: folder\n' "${any[@]}" --hands "$hands" three.json folder
    expect "two folders as shards, $hands hands" 4 '' $'read fault: folder\n' "${any[@]}" --hands "$hands" folder folder
done

# Status 5: the output or the error output has no room. The other one is compared.
full() { # out|err NAME STATUS WANTED WORD..
    local stream=$1 name=$2 status=$3
    : >got.out
    : >got.err
    if [ "$stream" = out ]; then want '' "$4"; else want "$4" ''; fi
    shift 4
    if [ "$stream" = out ]; then "$program" "$@" >/dev/full 2>got.err; else "$program" "$@" >got.out 2>/dev/full; fi
    judge "$name" $? "$status"
}
full out 'no room for the listing' 5 $'write fault\n' "${break_in[@]}" "${shards[@]}"
full out 'no room for the listing, 4 hands' 5 $'write fault\n' "${break_in[@]}" --slack 1m --batch 1 --hands 4 "${shards[@]}"
full out 'no room for the canonical text' 5 $'write fault\n' check --query any.eql --fields fields.json
full err 'no room for the report' 5 "@$cases/break-in/stdout" "${break_in[@]}" --slack 1m "${shards[@]}"
full err 'no room for the line about a missing file' 1 '' "${any[@]}" none
want '' $'write fault\n'
: >got.out
"$program" "${break_in[@]}" "${shards[@]}" >&- 2>got.err
judge 'a closed output' $? 5

end
