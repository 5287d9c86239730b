# shellcheck shell=bash
# What the tests of the built program and of the script eql share: each run is judged by its status, its output and its error
# output, byte for byte. Sourced in a folder of its own, which is removed at the end. Where EQL_TICKS names a file, it gets a byte for
# each run, by which the script test shows how far the tests are.
set -u
export LC_ALL=C
passed=0 failed=0 left_out=0

# Where the command that some runs need isn't there, these are left out, and counted.
wants() { # COMMAND [HOW-MANY-RUNS]
    ! command -v "$1" >/dev/null || return 0
    left_out=$((left_out + ${2:-1}))
    return 1
}

# A text that is wanted: as it stands, or, behind @, that of a file.
wanted() { case $1 in @*) cat "${1#@}" ;; *) printf '%s' "$1" ;; esac; }

# What a run has to write.
want() { # OUT ERR
    wanted "$1" >want.out
    wanted "$2" >want.err
}

# Counts the run that left the files got.out and got.err, and shows it where it differs.
judge() { # NAME STATUS WANTED-STATUS
    [ -z "${EQL_TICKS-}" ] || printf . >>"$EQL_TICKS"
    if [ "$2" = "$3" ] && cmp -s got.out want.out && cmp -s got.err want.err; then
        passed=$((passed + 1))
        return
    fi
    failed=$((failed + 1))
    echo "FAILED: $1: status $2, wanted $3"
    local it
    for it in out err; do
        cmp -s "got.$it" "want.$it" || printf '%s\n' "$(diff -a "want.$it" "got.$it" | head -c 1000)"
    done
}

# Tells the counts; the status is 0 where nothing failed.
end() {
    [ "$left_out" = 0 ] || echo "$left_out left out: they want python3 or gzip, which isn't on the PATH"
    echo "$passed passed, $failed failed"
    [ "$failed" = 0 ]
}
