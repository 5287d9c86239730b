# bash completion for eql(1)                                -*- shell-script -*-

_eql() {
    local word=${COMP_WORDS[COMP_CWORD]} before=${COMP_WORDS[COMP_CWORD - 1]} it offered options
    COMPREPLY=()
    if [ "$COMP_CWORD" = 1 ]; then
        mapfile -t COMPREPLY < <(compgen -W 'find check made' -- "$word")
        return
    fi
    case ${COMP_WORDS[1]} in
        find) options='--query --fields --tiebreaker --slack --batch --hands --checkpoint --every --places' ;;
        check) options='--query --fields' ;;
        made) options='--hands' ;;
        *) return ;;
    esac
    # A value behind '=' is a word of its own, since '=' is one of the marks between words.
    [ "$before" != = ] || before=${COMP_WORDS[COMP_CWORD - 2]}
    [ "$word" != = ] || { before=${COMP_WORDS[COMP_CWORD - 1]} word=''; }
    case $before in
        --query | --fields | --checkpoint)
            mapfile -t COMPREPLY < <(compgen -f -- "$word")
            compopt -o filenames 2>/dev/null
            return ;;
        --hands) mapfile -t COMPREPLY < <(compgen -W '0 1 2 3 4 5 6 7 8 9 10 11 12 13 14 15 16' -- "$word") && return ;;
        --batch) mapfile -t COMPREPLY < <(compgen -W '1 16 256 4096' -- "$word") && return ;;
        --every) mapfile -t COMPREPLY < <(compgen -W '1 10 100 1000' -- "$word") && return ;;
        --slack) mapfile -t COMPREPLY < <(compgen -W '0s 10s 1m 5m 1h 1d' -- "$word") && return ;;
        --tiebreaker) return ;;
    esac
    # An option that was given isn't offered again, and behind -- there is none.
    for it in "${COMP_WORDS[@]:2:COMP_CWORD-2}"; do
        case $it in
            --) options='' ;;
            --*) options=" $options " options=${options/ ${it%%=*} / } ;;
        esac
    done
    case $word,${COMP_WORDS[1]} in
        -*) mapfile -t COMPREPLY < <(compgen -W "$options" -- "$word") ;;
        *,find)
            mapfile -t COMPREPLY < <(compgen -f -- "$word")
            compopt -o filenames 2>/dev/null ;;
        *)
            offered=$options
            mapfile -t COMPREPLY < <(compgen -W "$offered" -- "$word") ;;
    esac
} && complete -F _eql eql
