# Reads the options, tests the inputs and runs a program on each. Sourced by ./tozhenab after a file that gives
#   version       prints the version
#   ready NAME    sets `program` to the path of the proved program NAME, or exits

usage() {
    cat <<'EOF'
usage: tozhenab [--why] [--status] [--] [FILE..]

Answers each FILE, or standard input where none is named. The FILE - is standard input.

  --why      say who is at fault where an input is refused, instead of answering it; no program is run
  --status   end with status 3 where an input is refused
  --help     print this page
  --version  print the landed version, and that of the Rattle kit
  --         whatever follows is a FILE

Status: 0 answered; 1 an input that cannot be read to its end, or an answer that cannot be written; 2 wrong usage,
or a FILE that cannot be read; 3 refused, with --status.
EOF
}

say() {
    printf 'tozhenab: %s\n' "$*" >&2
}

fail() { # STATUS TEXT
    say "$2"
    exit "$1"
}

is_open() { # DESCRIPTOR
    command : 3>&"$1"
}

# The next file that a shell opens takes a closed descriptor, so none stays closed.
hold_descriptors() {
    is_open 2 || exec 2>/dev/null
    standard_input=open
    is_open 0 2>/dev/null || { standard_input=closed && exec </dev/null; }
    is_open 1 2>/dev/null || fail 1 "the answer cannot be written: standard output is closed"
}

test_inputs() { # FILE..
    for file; do
        if [ "$file" != - ]; then
            [ -e "$file" ] || fail 2 "there is no file $file"
            [ ! -d "$file" ] || fail 2 "$file is a folder"
            [ -r "$file" ] || fail 2 "$file cannot be read"
        elif [ "$standard_input" = closed ]; then
            fail 1 "the input cannot be read: standard input is closed"
        fi
    done
}

run() {
    "$program"
}

# Gives 3 where the answer is a refusal. An answer has at most 4,096 words and 256 stints, and fits into a variable.
run_and_look() {
    lines=$("$program") || return
    if [ -n "$lines" ] && ! printf '%s\n' "$lines" | cat 2>/dev/null; then
        say "the answer cannot be written"
        return 1
    fi
    case $lines in
    refused=0 | refused=0[!0-9]*) ;;
    refused=*) return 3 ;;
    esac
}

# Answers standard input. A program has failed where it says something, whatever its status.
answer() { # run | run_and_look
    { said=$("$1" 2>&1 >&3 3>&-); } 3>&1
    ended=$?
    [ -z "$said" ] || printf '%s\n' "$said" >&2
    case $ended in
    0 | 3) [ -z "$said" ] || return 1 ;;
    1 | 141) ;; # 141: whoever read the answer has left
    *) say "the program ended with status $ended" ;;
    esac
    return "$ended"
}

# Ends at the first failure: answers after a missing one would be taken for those of other files.
answer_all() { # run | run_and_look, FILE..
    how=$1
    shift
    status=0
    for file; do
        if [ "$file" = - ]; then answer "$how"; else answer "$how" <"$file"; fi
        ended=$?
        case $ended in
        0) ;;
        3) status=3 ;;
        *)
            [ $# -eq 1 ] || say "no whole answer to $file, and none to the files after it"
            exit "$ended"
            ;;
        esac
    done
    exit "$status"
}

front() {
    hold_descriptors
    name=tozhenab how=run
    while [ $# -gt 0 ]; do
        case $1 in
        --why) name=tozhenab_why ;;
        --status) how=run_and_look ;;
        --help) usage; exit ;;
        --version) version; exit ;;
        --) shift && break ;;
        -?*) fail 2 "there is no option $1; tozhenab --help has those that there are" ;;
        *) break ;;
        esac
        shift
    done
    [ $# -gt 0 ] || set -- -
    test_inputs "$@"
    ready "$name"
    answer_all "$how" "$@"
}
