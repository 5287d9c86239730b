#!/usr/bin/env bash
# Tests of the scripts beside the program: examples/events, timeline, watch, rule-test and search-new. The page of the timeline is opened in
# Chromium where that is there; where it isn't, one line says so. Status, output and error output are compared byte for byte.
#
#     .ci/tools_tests.sh PROGRAM [PICTURE]
#
# PICTURE gets the picture of the example's page, as docs/timeline.png is. Prints each run that differs. The last line is
# 'N passed, M failed', and the status is 0 where M is 0.
program=$(readlink -f "${1:?the built program}") && [ -x "$program" ] || { echo "no program ${1:-}" >&2; exit 2; }
top=$(cd "$(dirname "$(readlink -f "$0")")/.." && pwd) || exit 2
picture=${2:+$(readlink -m "$2")}
room=$(mktemp -d) || exit 2
trap 'rm -rf "$room"' EXIT
cp -r "$top/examples" "$room" && cd "$room/examples" || exit 2
. "$top/.ci/judging.sh"
command -v python3 >/dev/null || { echo 'the scripts want python3' >&2; exit 2; }

# Runs a script with these words.
expect() { # NAME STATUS OUT ERR COMMAND..
    local name=$1 status=$2
    want "$3" "$4"
    shift 4
    "$@" >got.out 2>got.err </dev/null
    judge "$name" $? "$status"
}
# Compares what a check wrote to got.out.
same() { # NAME WANTED
    want "$2" ''
    : >got.err
    judge "$1" 0 0
}

# A log of four lines and a listing over it, made by hand. The key has a text of JSON, and the second match a number beyond a float's.
cat >log.json <<'LINES'
{"@timestamp":1000,"user":{"name":"ana"},"process":{"name":"a"}}
{"@timestamp":"1970-01-01T00:00:02.5Z","user.name":"ana","tags":["x","y"]}
{"@timestamp":3000,"user":{"name":"b\u006f"},"n":9223372036854775807}
{"@timestamp":3000,"user":{"name":"bo"},"n":1.0}
LINES
printf '%s\n' '1 ["ana <1:2@3>"] 0:1@0 0:2@65' '2 [null,9223372036854775807] 0:3@140 0:4@210' >list
head='{"match":1,"keys":["ana <1:2@3>"],"first":"1970-01-01T00:00:01.000Z","last":"1970-01-01T00:00:02.500Z","seconds":1.5,"events":['
second='{"match":2,"keys":[null,9223372036854775807],"first":"1970-01-01T00:00:03.000Z","last":"1970-01-01T00:00:03.000Z","seconds":0.0,"events":['
of() { printf '{"file":"log.json","line":%d,"event":%s}' "$1" "$2"; }
line() { sed -n "$1p" log.json; }
expect 'events as JSON' 0 "$head$(of 1 "$(line 1)"),$(of 2 "$(line 2)")]}"$'\n'"$second$(of 3 "$(line 3)"),$(of 4 "$(line 4)")]}"$'\n' '' \
    ./events --json list log.json
expect 'events as JSON, some fields' 0 "$head$(of 1 '{"user.name":"ana","tags":null}'),$(of 2 '{"user.name":"ana","tags":["x","y"]}')]}
$second$(of 3 '{"user.name":"bo","tags":null}'),$(of 4 '{"user.name":"bo","tags":null}')]}
" '' ./events --json --only user.name,tags list log.json
usage='usage: events [--json [--only FIELD,..]] LISTING SHARD..'
expect 'events, --only alone' 2 '' "$usage"$'\nevents: error: --only goes with --json\n' ./events --only user.name list log.json
expect 'events, no shard' 2 '' "$usage"$'\nevents: error: a listing and its shards are wanted\n' ./events list
expect 'events, no listing' 1 '' $'events: no file \'nowhere\'\n' ./events nowhere log.json

# The page's data, read back: what it tells and the lines as they are. Nothing of it means something to HTML.
usage='usage: timeline [--query FILE] [--lane FIELD] [--title TEXT] LISTING SHARD.. >page.html'
read_back() { # PAGE EXPRESSION
    python3 -c 'import json, re, sys
text = re.search(r"<script type=\"application/json\" id=\"data\">(.*?)</script>", open(sys.argv[1], encoding="utf-8").read(), re.S)[1]
assert text.isascii() and not re.search("[<>&]", text)
data = json.loads(text)
print(eval(sys.argv[2]))' "$1" "$2" >got.out 2>&1
}
printf '%s' 'sequence by user.name /* no.field */ [any where process.name : "x.y" and length(`a.b`) > 5 and ?tags in ("z.z")]' \
    ' [any where not startsWith~(@timestamp, """t.t""")] until [file where true] | head 5 // not.one' >fields.eql
want '' ''
: >got.out
./timeline --query fields.eql list log.json >page.html 2>got.err
judge 'a page' $? 0
read_back page.html '[it[:4] for it in data["matches"]]'
same 'names, keys and first times' $'[[\'1\', [\'ana <1:2@3>\'], 1000, 0], [\'2\', [None, \'9223372036854775807\'], 3000, 0]]\n'
read_back page.html '[event[:4] for it in data["matches"] for event in it[4]]'
same 'shards, lines, spans and lanes' $'[[0, 1, 0, 0], [0, 2, 1500000000, 0], [0, 3, 0, 0], [0, 4, 0, 0]]\n'
read_back page.html '"".join(event[4] + "\n" for it in data["matches"] for event in it[4]) == open("log.json").read()'
same 'lines' $'True\n'
read_back page.html '[data[it] for it in ("title", "fields", "shards", "lanes")]'
same 'what the query names' $'[\'fields.eql\', [\'@timestamp\', \'a.b\', \'process.name\', \'tags\', \'user.name\'], [\'log.json\'], [\'log.json\']]\n'
./timeline --lane user.name --title '</title>' list log.json >page.html
read_back page.html '[data[it] for it in ("title", "query", "lanes")]'
same 'lanes by a field, and a title' $'[\'</title>\', None, [\'ana\', \'bo\']]\n'
: >empty
./timeline empty log.json >page.html
read_back page.html 'data["matches"]'
same 'no match' $'[]\n'
expect 'a page, no words' 2 '' "$usage"$'\ntimeline: error: a listing and its shards are wanted; --help tells more\n' ./timeline
expect 'a page, no shard of this name' 1 '' $'timeline: no file \'nowhere\'\n' ./timeline list nowhere
expect 'a page, a folder' 1 '' $'timeline: read fault: \'queries\': Is a directory\n' ./timeline --query queries list log.json
refuse() { # TOLD LISTING
    printf '%s\n' "$2" >bad
    expect "a page is refused: $1" 1 '' "timeline: line 1 of the listing: $1"$'\n' ./timeline bad log.json
}
refuse 'not a number, a key and events' 'one [] 0:1@0'
refuse 'not a number, a key and events' '1 ["a" 0:1@0'
refuse 'an event without its place: the listing is to be made with --places' '1 [] 0:1'
refuse 'an event of shard 1, where 1 shards are named' '1 [] 1:1@0'
refuse "no line of 'log.json' begins behind 3 bytes: are these the shards of the run, in its order?" '1 [] 0:1@3'
refuse 'an event that is earlier than the one before it: are these the shards of the run, in its order?' '1 [] 0:3@140 0:1@0'
want '' $'timeline: write fault: No space left on device\n'
: >got.out
./timeline list log.json >/dev/full 2>got.err
judge 'a page, no room' $? 5

# A rule's own tests, by the built program.
expect 'rule-test' 0 $'6 passed, 0 failed\n' '' ./rule-test --program "$program" tested-rules
usage='usage: rule-test [--program PROGRAM] FOLDER'
expect 'rule-test, no words' 2 '' "$usage"$'\nrule-test: error: a folder with rules and their cases is wanted; --help tells its form\n' ./rule-test
expect 'rule-test, no folder' 1 '' $'rule-test: no folder \'nowhere\': No such file or directory\n' ./rule-test nowhere
expect 'rule-test, no rule' 1 '' $'rule-test: no rule in timeline.d: it has no file NAME.eql\n' ./rule-test timeline.d
expect 'rule-test, a rule without tests' 1 '' $'rule-test: the rule collected-and-sent has no tests: no file rules/collected-and-sent.cases\n' ./rule-test rules
expect 'rule-test, no program' 1 '' $'rule-test: the program can\'t be run: \'./nowhere\': No such file or directory\n' \
    ./rule-test --program ./nowhere tested-rules
mkdir mine && cp tested-rules/fields.json mine && echo 'sequence [any where event.action == "a"] [any where event.action == "b"]' >mine/two.eql
try() { # NAME STATUS OUT ERR CASES
    printf '%s\n' "$5" >mine/two.cases
    expect "rule-test: $1" "$2" "$3" "$4" ./rule-test --program "$program" mine
}
sed -i 's/{/{"event.action":"keyword",/' mine/fields.json
first='{"@timestamp":5,"event":{"action":"a","sequence":2}}' second='{"@timestamp":5,"event":{"action":"b","sequence":1}}'
try 'a line that must match' 3 $'FAILED two: one\n    line 4 must match, and is in no match: '"$first"$'\n0 passed, 1 failed\n' '' \
    $'case one\n// first\n\n+ '"$first"
try 'a line that must not match' 3 $'FAILED two: both\n    line 3 must not match, and is in a match: '"$second"$'\n1 passed, 1 failed\n' '' \
    $'case both\n+ '"$first"$'\n- '"$second"$'\ncase one\n- '"$first"
try 'a tiebreaker' 0 $'1 passed, 0 failed\n' '' $'with --tiebreaker event.sequence\ncase both\n- '"$first"$'\n- '"$second"
try 'a rejected line' 3 $'FAILED two: broken\n    line 3 is rejected, NotJson: {"@timestamp":\n0 passed, 1 failed\n' '' \
    $'case broken\n- '"$first"$'\n- {"@timestamp":'
form='neither a comment (//), nor `case NAME`, nor a line of a case (+ or -, and a blank), nor `with OPTIONS` before the cases'
try 'another line' 1 '' "rule-test: mine/two.cases, line 2: $form"$'\n' $'case one\n'"$first"
try 'a case without lines' 1 '' $'rule-test: mine/two.cases, line 1: a case without lines\n' $'case one\ncase two\n- '"$first"
try 'no case' 1 '' $'rule-test: mine/two.cases: no case\n' '// none'
try 'another option' 1 '' "$("$program" 2>&1 >/dev/null | sed '1s/^/rule-test: two: the program says: /')"$'\n' $'with --other\ncase one\n- '"$first"
echo 'any where nothing == 1' >mine/two.eql
try 'a query that is refused' 3 $'FAILED two: one\n    check: UnknownField nothing\n0 passed, 1 failed\n' '' $'case one\n- '"$first"

# What is new in a log that grows: docs/RECIPES.md has how it goes on, and here is what stops it.
expect 'search-new, no words' 2 '' $'usage: examples/search-new FOLDER --query FILE --fields FILE --slack TIME [OPTION..] SHARD\n' ./search-new
news=(env EQL="$program" ./search-new news --query break-in.eql --fields fields.json --slack 1m)
expect 'search-new, no shard' 1 '' $'no file nowhere\n' "${news[@]}" nowhere
expect 'search-new, another search of its folder' 75 '' $'search-new: a run of news still searches\n' flock news/lock "${news[@]}" gate-1.json
head -n 30 gate-1.json >grown.json
expect 'search-new' 0 $'1 ["ben"] 0:19 0:20 0:21 0:22 0:23 0:26\n' '' "${news[@]}" --every=1 grown.json
expect 'search-new, nothing new' 0 '' '' "${news[@]}" --every=1 grown.json

# How far a search is: of a stand-in that has read so much of its shards and waits; and of the program, in a terminal.
usage='usage: watch [--every SECONDS] [--once] PID | watch [--every SECONDS] -- PROGRAM find OPTION.. SHARD..'
expect 'watch, no words' 2 '' "$usage"$'\nwatch: error: the number of a process is wanted, or a command behind --; --help tells more\n' ./watch
expect 'watch, a command without --' 2 '' "$usage"$'\nwatch: error: argument pid: \'./eql\' isn\'t the number of a process, and a command stands behind --\n' \
    ./watch ./eql
expect 'watch, no process' 1 '' $'watch: no process 99999999\n' ./watch 99999999
expect 'watch, no program' 1 '' $'watch: the program can\'t be run: \'./nowhere\': No such file or directory\n' ./watch -- ./nowhere find log.json
expect 'watch, its status' 7 $'listing\n' $'report\n' ./watch --every 0.1 -- sh -c 'echo listing; echo report >&2; exit 7'
cat >stand_in.py <<'END_OF_FILE'
import sys, time
shards = [open(name, "rb", buffering=0) for name in sys.argv[-int(sys.argv[1]):]]
for shard in shards:
    shard.read(1500000)
print("1 [] 0:1\n27 [] 0:2\n28 [] 0:", end="", flush=True)
open("ready", "w").close()
time.sleep(60)
END_OF_FILE
stand_in() { # NAME TOLD COUNT SHARD..
    rm -f ready
    python3 stand_in.py "$3" find --query fields.eql --fields fields.json --places "${@:4}" >listing 2>/dev/null < <(cat big.json) &
    local process=$!
    for _ in {1..100}; do [ ! -e ready ] || break; sleep 0.1; done
    expect "watch: $1" 0 "$2"$'\n' '' ./watch --once "$process"
    { kill "$process"; wait "$process"; } 2>/dev/null
}
head -c 3000000 /dev/zero >big.json
shown() { printf '%-30s%10s of %s MB %4s %%, 0.0 MB a second, 27 matches' "$@"; }
stand_in 'one shard' "$(shown '1 shard' 1.5 3.0 50)" 1 big.json
stand_in 'three shards, one of them twice' "$(shown '3 shards' 3.0 6.0 50)" 3 big.json log.json big.json
stand_in 'a shard that is a pipe' "$(shown '2 shards' 1.5 3.0 50)" 2 /dev/stdin big.json
in_terminal() { # COMMAND..
    python3 -c 'import os, pty, sys
sys.exit(os.waitstatus_to_exitcode(pty.spawn(sys.argv[1:], lambda file: os.read(file, 65536))))' "$@" </dev/null >terminal
}
printf '{"@timestamp":%d}\n' 1 2 3 >three.json
echo 'any where true' >any.eql
search="'$program' find --hands 0 --query any.eql --fields fields.json <(cat three.json; sleep 2) three.json"
six=$'1 [] 0:1\n2 [] 1:1\n3 [] 0:2\n4 [] 1:2\n5 [] 0:3\n6 [] 1:3\n'
reports=$'shard 0: lines 3 accepted 3 late 0 rejected 0\nshard 1: lines 3 accepted 3 late 0 rejected 0\n'
want "$six" "$reports"
in_terminal bash -c "exec ./watch --every 0.3 -- $search >got.out 2>got.err"
judge 'watch: listing and report are the search'"'"'s own' $? 0
grep -o -m 1 '2 shards .* of 0.0 MB' terminal >got.out
same 'watch: the terminal has the rest' "$(printf '%-30s%10s of 0.0 MB' '2 shards' 0.0)"$'\n'
in_terminal bash -c "exec ./watch --every 0.3 -- $search"
tr -d '\r' <terminal | sed 's/^\x1b\[[0-9]*A\x1b\[J//' | grep -E '^([1-9] \[\]|shard )' >got.out
same 'watch: listing and report in the terminal itself' "$six$reports"

# The page in a browser: that of the example, one of a hostile log, and one of many matches.
if ! reason=$("$top/.ci/page_checks.py" ready 2>&1); then
    echo "skipped: the page in a browser: $reason"
    end
    exit
fi
seen() { # NAME WANTED WORD..
    local name=$1
    want "$2" ''
    shift 2
    "$top/.ci/page_checks.py" "$@" >got.out 2>got.err
    judge "$name" $? 0
}
calm=$'faults and refusals of the policy: 0\ndialogs and windows: 0\nasked for beside the page: 0\n'
./timeline --query break-in.eql "$top/cases/break-in-places/stdout" gate-1.json desk-7.json >page.html
seen 'the page of the example' "title: break-in.eql
summary: 2 matches, 12 events in 2 lanes of 2 shards
rows: 1 ben, 2 svc-backup
a click on the second row: Match 2 svc-backup
in words: 6 events in 2 lanes, over 1 minute 41 seconds2025-03-04 08:30:00.050 to 08:31:40.774 UTC
lanes: gate-1, desk-7
points: 6
gaps: first, 4.14 seconds later, 4.143 seconds later, 12.069 seconds later, 44.848 seconds later, 35.524 seconds later
a click on the fifth point: Event 5 line 37 of desk-7.json Copy line
its line: True
indented: ['{', '  \"@timestamp\": \"2025-03-04T08:31:05.250Z\",', '  \"event\": {']
marked: \"type\" \"start\" \"name\" \"svc-backup\" \"name\" \"powershell.exe\"
the address: #match=2&event=5
on the picture: h1 #tools #row-0 #row-1 h2 .chart .events #json
a PNG of at most 200 KB: True
a key to the right: Event 6 line 38 of desk-7.json Copy line
a key up and two to the right: Match 1 ben, Event 3 line 21 of gate-1.json Copy line
its line: True
a text: 2 svc-backup | 1 of 2 matches
a key's value: 1 ben
longest first: 2 svc-backup, 1 ben
folded: ▸ svc-backup, ▸ ben
one opened: ▾ svc-backup, 2 svc-backup, ▸ ben
table: 2 svc-backup 1 minute 41 seconds, 1 ben 58.783 seconds
printed: table
light: rgb(34, 38, 43)
dark: rgb(228, 230, 233)
the other one by a key: rgb(34, 38, 43)
by the address: Match 2 svc-backup, Event 6 line 38 of desk-7.json Copy line
$calm" example page.html "${picture:-picture.png}" gate-1.json desk-7.json
"$top/.ci/hostile_log.py" >hostile.json
echo 'sequence by process.name [any where event.action == "a"] [any where event.action == "b"]' >hostile.eql
"$program" find --query hostile.eql --fields fields.json --places hostile.json >listing 2>report
./timeline --query hostile.eql listing hostile.json >page.html
seen 'the page of a hostile log' "events: 200
lines that are shown whole: 200
keys as they are in the log: 200
rows of the table: 100
something of the log ran: False
scripts beside the page's own: 0
elements that the page doesn't make: 0
signs of direction in the page: False
$calm" hostile page.html hostile.json
mkdir many && "$top/.ci/many_matches.py" many 2 8000000 10000
./timeline many/listing many/{0,1}.json >page.html
seen 'the page of many matches' "matches: 10,000 matches, 40,000 events in 2 lanes of 2 shards
rows are few: True
the last one: Match 10000 user399, 10000
rows are few: True
one in the middle: True
$calm" many page.html

end
