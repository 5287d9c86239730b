# shellcheck shell=bash disable=SC2034
# What the script eql, the tests, the gate, release/renew and packaging/deb know in common of the shipped program. Sourced, with the
# top of the repository in `top`, and with a function `stop` that tells a line and ends with status 70.
#
# MANIFEST begins with four lines 'NAME VALUE': version, program sha256, toolchain, sources sha256. What follows is the list of what
# the program was proved from: of each file of src, specs and proofs of the program's crates its sha256 and its path, in the order
# of the paths' bytes, as sha256sum writes them. In it crates.txt stands for its lines about these crates alone. The digest of the
# sources is the sha256 of the list.
: "${top:?}"
manifest=$top/release/MANIFEST
packed=$top/release/eql-x86_64-linux.xz
built=$top/crates/eql/out/eql

# The crate and those of the repository below it, lowest first, each once.
with_those_below() {
    awk -v crate="$1" '
        { sub(/#.*/, "") }
        split($0, half, ":") == 2 { split(half[1], name, " "); below[name[1]] = half[2] }
        function visit(it,    list, count, i) {
            if (!(it in below) || seen[it]++) return
            count = split(below[it], list, " ")
            for (i = 1; i <= count; i++) visit(list[i])
            print it
        }
        END { visit(crate) }' "$top/crates.txt"
}
mapfile -t crates < <(with_those_below eql)

# The lines of crates.txt about the program's crates, without comments, in the order of their bytes.
lines_of_crates() {
    awk -v crates="${crates[*]}" '
        BEGIN { count = split(crates, list, " "); for (i = 1; i <= count; i++) is_ours[list[i]] = 1 }
        { sub(/[ \t]*#.*/, "") }
        split($0, half, ":") == 2 { split(half[1], name, " "); if (name[1] in is_ours) print }' "$top/crates.txt" | LC_ALL=C sort
}

# Sets `folders` to those of the program's sources, by their paths from the top.
find_folders() {
    local crate part
    folders=()
    for crate in "${crates[@]}"; do
        for part in src specs proofs; do [ ! -e "$top/crates/$crate/$part" ] || folders+=("crates/$crate/$part"); done
    done
}

# Writes the list of the sources at hand.
list_sources() (
    cd "$top" || exit
    sum=$(lines_of_crates | sha256sum) && echo "${sum%% *}  crates.txt"
    find_folders
    [ "${#folders[@]}" = 0 ] || find "${folders[@]}" ! -type d -print0 | LC_ALL=C sort -z | xargs -0 -r sha256sum
)

# The sha256 of a file, or of the input; empty where it can't be read.
sha256_of() { # [FILE]
    local sum
    sum=$(sha256sum "${1:--}" 2>/dev/null) && echo "${sum%% *}"
}

# A value of the manifest's head.
said() { # NAME
    sed -n "1,4s/^$1 //p" "$manifest"
}

is_there() {
    reason='no program is shipped with these sources'
    [ -f "$manifest" ] && [ -f "$packed" ]
}

# Whether the sources at hand are those of the manifest's list. If not, `reason` names the first file that differs.
sources_fit() {
    local list
    is_there || return
    list=$(list_sources)
    [ "$(sha256_of <<<"$list")" != "$(said 'sources sha256')" ] || return 0
    reason=$(awk '
        { sum = $1; path = substr($0, 67) }
        FILENAME == "-" {
            at_hand[path] = 1
            if (!(path in proved)) print path " is none of the files that the shipped program was proved from"
            else if (proved[path] != sum) print path " differs from what the shipped program was proved from"
            else next
            told = 1
            exit
        }
        FNR > 4 { proved[path] = sum; order[++count] = path }
        END {
            for (i = 1; i <= count && !told; i++) if (!(order[i] in at_hand)) {
                print order[i] " is gone, which the shipped program was proved from"
                told = 1
            }
            if (!told) print "the digest in release/MANIFEST is not that of its list"
        }' "$manifest" - <<<"$list")
    return 1
}

# A program that was built here is up to date where no source of it is newer. Prints one that is, if there is one.
newer_source() {
    find "${crates[@]/#/$top/crates/}" "$top/crates.txt" -name out -prune -o -type f \
        \( -name '*.rt' -o -name '*.antt' -o -name crates.txt \) -newer "$built" -print -quit
}
is_built() { [ -f "$built" ] && [ -z "$(newer_source)" ]; }

# The folders in which the shipped program may lie unpacked: one of the checkout, and, where nothing can be written there, one of the
# user. Each may have a stamp for this checkout too. Its time is one at which the sources fitted the manifest, and the shipped file
# held the program that the manifest names.
unpacked_places() {
    local cache=${XDG_CACHE_HOME:-${HOME:+$HOME/.cache}}
    stamp=fits-$(stat -c %d-%i "$top")
    places=("$top/release/out")
    [ -z "$cache" ] || places+=("$cache/hulzaref/$(said 'sources sha256')")
}

# Whether nothing of what the stamp stands for changed since. The time of a file's last change, and not that of its content, counts, since a
# copy may bring an old one of the latter with it. Folders count too, for files that are gone.
is_fresh() { # STAMP
    local later
    [ -f "$1" ] || return
    later=$(cd "$top" && find "${crates[@]/#/crates/}" crates.txt release/MANIFEST release/eql-x86_64-linux.xz \
        -regex 'crates/[^/]*/out' -prune -o -cnewer "$1" -print -quit 2>&1) && [ -z "$later" ]
}

refuse_packed() {
    stop "release/eql-x86_64-linux.xz doesn't hold the program that release/MANIFEST names, and isn't run; EQL_BUILD=1 proves and builds one here"
}

# Whether the shipped program stands for the sources at hand. Ends with status 70 where the shipped file isn't what it should be.
is_shipped() {
    local place now
    is_there || return
    unpacked_places
    for place in "${places[@]}"; do ! is_fresh "$place/$stamp" || return 0; done
    # The stamp gets a time before that of the look, and more than a clock of files goes in steps.
    printf -v now '%(%s)T' -1
    sources_fit || return
    can_unpack || return
    [ "$(xz -dc "$packed" 2>/dev/null | sha256_of)" = "$(said 'program sha256')" ] || refuse_packed
    for place in "${places[@]}"; do
        ! { mkdir -p "$place" && touch -d "@$((now - 1))" "$place/$stamp"; } 2>/dev/null || break
    done
    return 0
}

can_unpack() {
    local machine
    machine=$(uname -sm)
    if [ "$machine" != 'Linux x86_64' ]; then
        reason="this machine can't run the shipped program, which is for Linux on x86_64: uname says $machine"
    elif ! command -v xz >/dev/null; then
        reason="this machine can't unpack the shipped program: xz isn't on the PATH"
    else
        return 0
    fi
    return 1
}

# Runs a program without words. It must end with status 2 and print its usage.
can_run() { # PROGRAM
    local told status
    told=$("$1" 2>&1 >/dev/null </dev/null)
    status=$?
    case $status,$told in 2,'usage: eql '*) return 0 ;; esac
    told=${told%%$'\n'*}
    reason="this machine can't run the shipped program: without words it ended with status $status${told:+ and told: ${told//"$1"/eql}}"
    return 1
}

# Unpacks the shipped program into a folder, by a name of its own until it is whole and was tried. Status 1 and `reason`: the machine
# can't run it there; 2 and `fault`: the folder doesn't take it.
unpack_into() { # FOLDER
    fault="the shipped program can't be unpacked: $1 can't be written"
    { mkdir -p "$1" && unpacking=$(mktemp "$1/eql.XXXXXX"); } 2>/dev/null || return 2
    trap 'rm -f "$unpacking"' EXIT
    put_unpacked "$1"
    local status=$?
    rm -f "$unpacking"
    trap - EXIT
    return "$status"
}
put_unpacked() { # FOLDER
    # What an unpacking left that was killed.
    find "$1" -name 'eql.??????' -mmin +60 -delete 2>/dev/null
    if ! xz -dc "$packed" 2>/dev/null >"$unpacking"; then
        xz -t "$packed" 2>/dev/null || refuse_packed
        fault="the shipped program can't be unpacked: $1 has no room for it"
        return 2
    fi
    [ "$(sha256_of "$unpacking")" = "$(said 'program sha256')" ] || refuse_packed
    chmod 755 "$unpacking"
    can_run "$unpacking" || return 1
    mv -f "$unpacking" "$1/eql" 2>/dev/null || return 2
}

# Sets `program` to the shipped program, unpacked. Status 1 and `reason`: it can't be taken. Ends with status 70 where it is refused, and
# where no folder takes it.
take_shipped() {
    local place wanted runs=0
    can_unpack || return
    unpacked_places
    wanted=$(said 'program sha256')
    for place in "${places[@]}"; do
        program=$place/eql
        [ ! -x "$program" ] || [ "$(sha256_of "$program")" != "$wanted" ] || return 0
    done
    for place in "${places[@]}"; do
        program=$place/eql
        unpack_into "$place"
        case $? in 0) return 0 ;; 1) runs=1 ;; esac
    done
    [ "$runs" = 1 ] || stop "$fault"
    return 1
}

# Sets `program` to what is run without a build, and `origin` to whence it is: `built` or `shipped`. Status 1 and `reason`: there is none.
choose() {
    if is_built; then
        program=$built origin=built
    else
        is_shipped || return
        take_shipped || return
        origin=shipped
    fi
}
