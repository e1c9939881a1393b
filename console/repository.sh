# The programs of the repository at `home`: rt proves and builds what is missing, or older than a source.
# Whoever sources this gives `home`, and `say TEXT`, which prints a line to standard error.

logs=$home/target/console

version() {
    landed=$(sed -n '/^## /{s///p;q;}' "$home/docs/CHANGELOG.md")
    commit=
    [ ! -e "$home/.git" ] || commit=$(git -C "$home" describe --always --dirty 2>/dev/null)
    kit=$(rt version 2>/dev/null) || kit="not on the path"
    printf 'tozhenab %s%s\nRattle kit: %s\n' "$landed" "${commit:+, commit $commit}" "$kit"
}

# From `home`, since find returns to the folder that it was started in, which its user may not be allowed to enter. A crate's own folder counts as
# little as out/ in it, which rt makes there.
has_newer_source() { # FILE
    [ -n "$(cd "$home" && find crates crates.txt -path 'crates/*/out' -prune -o -newer "$1" \( ! -type d -o -path 'crates/*/*' -o ! -path 'crates/*' \) -print)" ]
}

# Names the crates that NAME needs, itself the last, in the order in which rt proves them. The kit's libraries have no line in crates.txt.
list_needed() { # NAME
    awk -v name="$1" '
        function visit(crate, uses, used, i) {
            if (seen[crate]++ || !(crate in listed)) return
            uses = split(listed[crate], used, " ")
            for (i = 1; i <= uses; i++) visit(used[i])
            print crate
        }
        { sub(/#.*/, "") }
        split($0, part, ":") == 2 { split(part[1], word, " "); listed[word[1]] = part[2] }
        END { visit(name) }' "$home/crates.txt"
}

# Of what rt prints, shows a line for each crate that it proves now. It prints nothing of a library that it has built before.
show_progress() { # CRATE..
    while IFS= read -r line; do
        case $line in
        "crate "*": "*) crate=${line#crate } && crate=${crate%%: *} ;;
        "logic=proved "*)
            place=0
            for needed; do
                place=$((place + 1))
                [ "$needed" != "$crate" ] || say "$place of $#: $crate"
            done
            ;;
        esac
    done
}

# Gives the status of the command, which the pipe would lose.
run_logged() { # LOG CRATES COMMAND..
    log=$1 crates=$2
    shift 2
    # shellcheck disable=SC2086 # a crate a word
    ended=$({ { "$@" </dev/null 2>&1 3>&-; echo "$?" >&3; } | tee "$log" | show_progress $crates; } 3>&1)
    return "$ended"
}

# Where rt cannot be run here, `obstacle` says why.
can_prove() {
    obstacle=
    if ! command -v rt >/dev/null; then
        obstacle="rt is not on the path"
    elif ! mkdir -p "$logs" 2>/dev/null || [ ! -w "$logs" ]; then
        obstacle="$home/target cannot be written"
    fi
    [ -z "$obstacle" ]
}

prove() { # CRATE COMMAND..
    name=$1 log=$logs/$1.log crates=$(list_needed "$1")
    shift
    say "rt checks $(printf '%s\n' "$crates" | sed -n '$=') crates; those that are new or changed take minutes. Its log is $log"
    run_logged "$log" "$crates" "$@" && return
    ended=$?
    awk '/error|no proof|not proved|^rt: /' "$log" | tail -n 5 >&2
    say "$name is not proved: $log has the reasons"
    exit "$ended"
}

# The mark of a check that passed is as old as the check's beginning, so a source edited meanwhile is newer.
bring_up_to_date() { # FILE CRATE, and the command that makes it
    file=$1 mark=$logs/$2.checked
    shift
    if [ -e "$file" ] && [ -e "$mark" ] && ! has_newer_source "$mark"; then return; fi
    if can_prove; then
        : >"$mark.new" || exit 2
        prove "$@"
        mv "$mark.new" "$mark" || exit 2
    elif [ -e "$file" ] && has_newer_source "$file"; then
        say "a source is newer than $file, which is used as it is: $obstacle"
    fi
    [ -e "$file" ] || { say "$file is not there: ${obstacle:-rt did not make it}"; exit 2; }
}

# rt has no command that builds a program and does not run it: here it answers an empty input.
build_program() { # NAME
    cd "$home/crates/$1" && rt run
}

ready() { # NAME
    program=$home/crates/$1/out/$1
    bring_up_to_date "$program" "$1" build_program "$1"
}

ready_archive() {
    archive=$home/target/staticlib/libhost_calls.a
    bring_up_to_date "$archive" host_calls_c "$home/host/archive"
}

# Marks what a gate that began with this file has proved and built.
mark_built() { # FILE CRATE..
    began=$1
    shift
    mkdir -p "$logs" || return
    for name; do touch -r "$began" "$logs/$name.checked" || return; done
}
