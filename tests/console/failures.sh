# Failures end with status 1 and say so, whatever the options; answers and refusals have their own statuses.

full_disk() { # COMMAND..
    ends 1 "the answer cannot be written" "$@" "$worked" >/dev/full
}

closed_output() { # COMMAND..
    ends 1 "the answer cannot be written" "$@" "$worked" >&-
}

closed_input() { # COMMAND..
    ends 1 "the input cannot be read" "$@" <&-
}

folder_as_input() { # COMMAND..
    ends 1 "the input cannot be read" "$@" </
}

closed_error() { # COMMAND..
    "$@" </ 2>&-
    [ $? -eq 1 ] || return
    "$@" "$worked" >/dev/full 2>&-
    [ $? -eq 1 ]
}

closed_all() { # COMMAND..
    "$@" <&- >&- 2>&-
    [ $? -eq 1 ]
}

file_without_input_and_error() { # COMMAND..
    "$@" "$refused" <&- 2>&- | grep -q "^refused=6$"
}

help_on_full_disk() {
    "$home/tozhenab" "$1" >/dev/full
    [ $? -eq 1 ]
}

several_inputs() {
    (cd "$examples" && ends 3 "" "$home/tozhenab" --status worked.in - refused-7.in <tide.in >"$work/answer") &&
        cat "$examples/worked.out" "$examples/tide.out" "$examples/refused-7.out" | cmp - "$work/answer"
}

file_like_an_option() {
    cp "$refused" "$work/--help" && (cd "$work" && prints refused=6 "$home/tozhenab" -- --help)
}

for options in "" --status --why "--why --status"; do
    for failure in full_disk closed_output closed_input folder_as_input closed_error closed_all file_without_input_and_error; do
        # shellcheck disable=SC2086 # no option, one or two
        check "$(echo "$failure" | tr _ " "), ${options:-no option}" "$failure" "$home/tozhenab" $options
    done
done
check "--help on a full disk" help_on_full_disk --help
check "--version on a full disk" help_on_full_disk --version
check "examples" answers_examples 0 "$home/tozhenab"
check "examples with --status" answers_examples 3 "$home/tozhenab" --status
check "several inputs with --status" several_inputs
check "a file after --" file_like_an_option
