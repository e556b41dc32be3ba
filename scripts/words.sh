#!/usr/bin/env bash
# The words of the command line, for the script `pureproof`, which reads this (`.`): what it answers by itself, which
# word is at fault where the program refuses them, and how it then runs the program. scripts/program.sh is read before.

# answer WORD: prints what --help, -h or --version asks for, and ends
answer() {
    local text kit sum
    if [ "$1" = --version ]; then
        kit=$(noted toolchain)
        sum=$(sum_of_sources "$kit")
        printf -v text 'pureproof %s\nsources: %s\ntoolchain: %s' "$(< "$root/VERSION")" "$sum" "$kit"
    else
        text=$(< "$root/scripts/help.txt")
    fi
    printf '%s\n' "$text" 2> /dev/null && exit 0
    echo 'write fault' >&2
    exit 6
}

# show WORD: the word in `shown`, as it can stand in a line
show() {
    shown=$1
    if [ ${#shown} -gt 60 ]; then
        shown=${shown:0:57}...
    fi
    case $shown in
        '' | *[!-A-Za-z0-9_.,:/=+@%\[\]]*) printf -v shown '%q' "$shown" ;;
    esac
}

# is_text WORD: whether it is UTF-8
is_text() {
    local LC_ALL=C next=$'[\x80-\xbf]' one two three four
    case $1 in
        *[$'\x80'-$'\xff']*) ;;
        *) return 0 ;;
    esac
    one=$'[\x01-\x7f]'
    two=$'[\xc2-\xdf]'$next
    three=$'\xe0[\xa0-\xbf]'$next'|'$'[\xe1-\xec\xee\xef]'$next$next'|'$'\xed[\x80-\x9f]'$next
    four=$'\xf0[\x90-\xbf]'$next$next'|'$'[\xf1-\xf3]'$next$next$next'|'$'\xf4[\x80-\x8f]'$next$next
    [[ $1 =~ ^($one|$two|$three|$four)*$ ]]
}

# check_number OPTION WORD LEAST MOST: whether the word is a number of this range; else says so in `fault`
check_number() {
    local LC_ALL=C
    case $2 in
        0 | [1-9] | [1-9][0-9] | [1-9][0-9][0-9] | [1-9][0-9][0-9][0-9] | [1-9][0-9][0-9][0-9][0-9] | \
            [1-9][0-9][0-9][0-9][0-9][0-9] | [1-9][0-9][0-9][0-9][0-9][0-9][0-9])
            [ "$2" -lt "$3" ] || [ "$2" -gt "$4" ] || return 0
            ;;
    esac
    show "$2"
    fault="$1 wants a number from $3 to $4, without sign and leading zeros; $shown isn't one"
    return 1
}

# check_value OPTION WORD: whether the word is a value of the option; else says so in `fault`
check_value() {
    case $1 in
        --mode)
            case $2 in
                verify | list | run | make) mode=$2 && return ;;
            esac
            show "$2"
            fault="--mode wants verify, list, run or make; $shown isn't one"
            return 1
            ;;
        --rounds) check_number "$1" "$2" 0 12 ;;
        --depth) check_number "$1" "$2" 1 6 ;;
        --lemmas) check_number "$1" "$2" 1 1000000 ;;
        --gates) check_number "$1" "$2" 1 4000000 ;;
        --order)
            case $2 in
                one | turns | back) return ;;
            esac
            show "$2"
            fault="--order wants one, turns or back; $shown isn't one"
            return 1
            ;;
        --fuel) check_number "$1" "$2" 0 100000 ;;
        --seed) check_number "$1" "$2" 1 200 ;;
        --function) function=$2 ;;
    esac
}

# take_option WORD..: the option that is first, with its value; how many words it takes is left in `taken`
take_option() {
    local option=${1%%=*}
    taken=1
    show "$1"
    case $option in
        --mode | --rounds | --depth | --lemmas | --gates | --order | --function | --fuel | --seed) ;;
        --help | -h | --version)
            fault="$shown stands alone, without other words"
            return 1
            ;;
        *)
            fault="there is no option $shown; there are --mode, --rounds, --depth, --lemmas, --gates, --order,"
            fault="$fault --function, --fuel and --seed (a FILE of that name stands behind --)"
            return 1
            ;;
    esac
    case $given in
        *" $option "*)
            fault="$option is given twice"
            return 1
            ;;
    esac
    given="$given$option "
    if [ "$option" != "$1" ]; then
        check_value "$option" "${1#*=}"
        return
    fi
    taken=2
    if [ $# -lt 2 ]; then
        fault="$option wants a value behind it"
        return 1
    fi
    case $2 in
        -*)
            show "$2"
            fault="$option wants a value behind it, and $shown begins as an option does (a value can: $option=$shown)"
            return 1
            ;;
    esac
    check_value "$option" "$2"
}

# check_mode FILES FIRST: whether the mode has what it wants, and nothing else; else says so in `fault`. FILES is how
# many there are, and FIRST the first one.
check_mode() {
    local option own
    case $mode in
        verify) own='--rounds --depth --lemmas --gates --order' ;;
        list) own='--rounds --depth' ;;
        run) own='--function --fuel' ;;
        make) own='--seed --rounds --depth --lemmas --gates' ;;
    esac
    for option in $given; do
        case " --mode $own " in
            *" $option "*) ;;
            *) fault="$option is no option of mode $mode, which takes ${own// /, }" && return ;;
        esac
    done
    if [ "$mode" = make ] && [ "$1" -gt 0 ]; then
        show "$2"
        fault="mode make takes no FILE, and $shown is one"
    elif [ "$mode" != make ] && [ "$1" -eq 0 ]; then
        fault="there is no FILE; mode $mode takes one to sixteen"
    elif [ "$mode" != make ] && [ "$1" -gt 16 ]; then
        fault="there are more than sixteen FILEs; mode $mode takes one to sixteen"
    elif [ "$mode" = run ] && [ "$given" = "${given/ --function /}" ]; then
        fault='mode run wants --function NAME, a function without parameters'
    elif [ "$mode" = make ] && [ "$given" = "${given/ --seed /}" ]; then
        fault='mode make wants --seed N, a number from 1 to 200'
    fi
}

# find_fault WORD..: says in `fault` which word is the first one at fault, and what is allowed there; empty if none
# seems to be. Names the mode in `mode`, and in `function` which function is to be run.
find_fault() {
    local number=0 files=0 first='' given=' ' taken shown word
    fault='' mode=verify function=''
    # No line that is in order has more than 35 words: of many the first ones have a fault, or are too many FILEs.
    set -- "${@:1:40}"
    for word in "$@"; do
        number=$((number + 1))
        if ! is_text "$word"; then
            fault="word $number isn't text (UTF-8)"
            return
        fi
    done
    while [ $# -gt 0 ]; do
        case $1 in
            --)
                shift
                break
                ;;
            -*)
                take_option "$@" || return
                shift "$taken"
                ;;
            *)
                [ "$files" -gt 0 ] || first=$1
                files=$((files + 1))
                shift
                ;;
        esac
    done
    [ "$files" -gt 0 ] || first=${1:-}
    check_mode $((files + $#)) "$first"
}

# end_as STATUS: ends as a program did that ended with this status: by a signal, if that ended it
end_as() {
    if [ "$1" -gt 128 ]; then
        ulimit -S -c 0
        trap - HUP INT QUIT TERM
        kill -s "$(($1 - 128))" "$$"
    fi
    exit "$1"
}

# run_below PROGRAM WORD..: runs the program on the words, and ends as it ends. If it refuses them, a line says why:
# what is in `fault`, or that there is no function of the name in `function`. What asks this script to end is passed on.
run_below() {
    local child status signal passed_on
    if ! { : <&0; } 2> /dev/null; then
        exec < /dev/null
    fi
    # What a shell starts in the background doesn't heed the keyboard, unless it is told to.
    (trap - INT QUIT && exec "$@") <&0 &
    child=$!
    for signal in HUP INT QUIT TERM; do
        # shellcheck disable=SC2064
        trap "passed_on=yes; kill -s $signal $child" "$signal"
    done
    # A signal to this script ends a wait, and not the program.
    while
        passed_on=no
        wait "$child"
        status=$?
        [ "$passed_on" = yes ]
    do
        :
    done 2> /dev/null
    if [ "$status" -eq 4 ]; then
        if [ -z "$fault" ] && [ "$mode" = run ]; then
            show "$function"
            fault="there is no function $shown without parameters; --mode list prints the names"
        fi
        printf 'pureproof: %s\n' "${fault:-pureproof --help says which words there are}" >&2
    fi
    end_as "$status"
}
