#!/usr/bin/env bash
# Runs a built program for the events of what the rules of examples/rules find, and each command that a page shows with what it
# writes. All of it is compared byte for byte.
#
#     .ci/examples.sh PROGRAM
#
# Prints each run that differs. Some scripts of examples/ want python3, and some commands gzip: runs of them are left out where these
# aren't there. The last line is 'N passed, M failed', and the status is 0 where M is 0.
program=$(readlink -f "${1:?the built program}")
[ -x "$program" ] || { echo "no program $1" >&2; exit 2; }
top=$(cd "$(dirname "$(readlink -f "$0")")/.." && pwd) || exit 2
room=$(mktemp -d) || exit 2
trap 'rm -rf "$room"' EXIT
cd "$room" || exit 2
# shellcheck source=.ci/judging.sh
. "$top/.ci/judging.sh"

# A folder that has what a page's commands name: the program, the examples and the cases.
place() { # NAME
    mkdir "$1" && cp -r "$top/examples" "$top/cases" "$1" && ln -s "$program" "$1/eql"
}

# The events of what each rule finds, beside the lines of the log by their numbers.
place rules
rules=rules/examples/rules
shards=("$rules"/{vpn-1,desk-12,files-3}.json)
for rule in "$rules"/*.eql; do
    wants python3 || continue
    "$program" find --query "$rule" --fields "$rules/fields.json" --slack 2m --places "${shards[@]}" >listing 2>got.err </dev/null
    while IFS= read -r line; do
        printf '%s\n' "$line"
        grep -oE ' [0-9]+:[0-9]+@[0-9]+' <<<"$line" | while IFS=' :@' read -r shard number _; do
            sed -n "${number}p" "${shards[$shard]}"
        done
    done <listing >want.out
    : >want.err
    "$top/examples/events" listing "${shards[@]}" >got.out 2>got.err
    judge "$(basename "$rule" .eql), its events" $? 0
done

# Runs the command of a page, with both streams as one, in the page's folder, which is on the PATH.
try() { # PAGE-AND-LINE FOLDER COMMAND
    # What follows such a command in its block reads what that wrote.
    [ -z "$rest" ] || { wants "$rest" || return; }
    case $3 in *examples/events* | *examples/spread* | *examples/timeline* | *examples/rule-test* | *examples/watch*)
        wants python3 || { rest=python3 && return; } ;;
    *gzip* | *zcat*) wants gzip || { rest=gzip && return; } ;;
    esac
    : >want.err
    : >got.err
    (cd "$2" && PATH=$PWD:$PATH bash -c "$3") >got.out 2>&1 </dev/null
    judge "$1: $3" 0 0
}

# Runs the blocks of `console` of a page in a folder of its own: in them a line that begins with `$ ` is a command, and what
# follows, up to the next command or the end of the block, is what it writes.
console_blocks() { # PAGE
    local page=$1 folder number=0 at='' line command='' inside='' rest=''
    folder=$(mktemp -u -p .)
    place "$folder"
    while IFS= read -r line; do
        number=$((number + 1))
        case $inside$line in
            '```console') inside=+ rest='' ;;
            '+$ '* | '+```')
                [ -z "$command" ] || try "$page, line $at" "$folder" "$command"
                command='' at=$number
                : >want.out
                if [ "$line" = '```' ]; then inside=''; else command=${line#'$ '}; fi ;;
            +*) printf '%s\n' "$line" >>want.out ;;
        esac
    done <"$top/$page"
}
for page in README.md docs/OPERATIONS.md docs/RECIPES.md examples/rules/README.md examples/tested-rules/README.md cases/README.md; do
    [ ! -f "$top/$page" ] || console_blocks "$page"
done

end
