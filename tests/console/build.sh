# The build, in a copy of the repository with a stand-in for rt. Its programs are stand-ins too, which run their input as shell commands.
copy="$work/a copy"
without_rt=$work/tools
proving="$work/proving:$without_rt"
loud="$work/loud:$without_rt" # its rt leaves a trace where it is asked to prove

make_copy() {
    mkdir "$copy" "$copy/crates" "$copy/crates/tozhenab" "$copy/crates/tozhenab_why" "$copy/docs" "$work/proving" "$work/loud" "$without_rt" &&
        cp -R "$home/tozhenab" "$home/console" "$copy" && cp "$home/docs/CHANGELOG.md" "$copy/docs" && chmod -R a+rX "$copy" &&
        printf '%s\n' "low: # a comment" "high: low io" "tozhenab: high low libc" "tozhenab_why: low" "other:" >"$copy/crates.txt" || return
    for tool in awk cat chmod dirname find git mkdir mv readlink sed sh tail tee touch; do
        ln -s "$(command -v "$tool")" "$without_rt/$tool" || return
    done
    cat >"$work/loud/rt" <<EOF
#!/bin/sh
[ "\$1" = version ] && echo "a kit" && exit
touch "$work/asked"
exit 7
EOF
    cat >"$work/proving/rt" <<'EOF'
#!/bin/sh
[ "$*" = run ] || exit 7
name=${PWD##*/}
proved() { # CRATE
    printf '%s\n' "crate $1: modules loaded=0 checked=1" "logic=proved functions=1"
}
echo "fn high::call: proved"
proved high
[ ! -e ../broken ] || { echo "rt: FAILED: $name" && exit 3; }
mkdir -p out
printf '%s\n' '#!/bin/sh' "name=$name" '. /dev/stdin' >"out/$name"
chmod +x "out/$name"
proved "$name"
EOF
    chmod +x "$work/loud/rt" "$work/proving/rt"
}

nothing_asked() {
    [ ! -e "$work/asked" ] && [ ! -e "$copy/target" ]
}

before_proving() { # STATUS TEXT ARGUMENT..
    status=$1 text=$2
    shift 2
    ends "$status" "$text" env PATH="$loud" "$copy/tozhenab" "$@" && nothing_asked
}

closed_before_proving() {
    before_proving 1 "standard input is closed" <&- && before_proving 1 "standard output is closed" "$worked" >&-
}

version_before_proving() {
    before_proving 0 "" --version >"$work/printed" && grep "$(sed -n '/^## /{s///p;q;}' "$home/docs/CHANGELOG.md")" "$work/printed" &&
        grep "a kit" "$work/printed"
}

unreadable_file() {
    cp "$worked" "$work/unreadable" && chmod 000 "$work/unreadable" &&
        ends 2 "unreadable cannot be read" as_reader env PATH="$loud" "$copy/tozhenab" "$worked" "$work/unreadable" && nothing_asked
}

# Gives the stand-in program this input.
run_copy() { # PATH INPUT ARGUMENT..
    path=$1 input=$2
    shift 2
    printf '%s\n' "$input" | env PATH="$path" "$copy/tozhenab" "$@"
}

no_rt() {
    ends 2 "rt is not on the path" run_copy "$without_rt" "" && nothing_asked
}

first_build() {
    ends 0 "tozhenab: rt checks 3 crates" run_copy "$proving" 'echo "$name"' >"$work/printed" && grep -qx tozhenab "$work/printed" &&
        printf 'tozhenab: %s\n' "2 of 3: high" "3 of 3: tozhenab" >"$work/expected" && sed 1d "$work/said" | diff "$work/expected" - &&
        grep -F "$copy/target/console/tozhenab.log" "$work/said" && grep -qx "fn high::call: proved" "$copy/target/console/tozhenab.log"
}

second_run() {
    prints tozhenab run_copy "$loud" 'echo "$name"' && [ ! -e "$work/asked" ]
}

why_is_another_program() {
    run_copy "$proving" : --why && prints tozhenab_why run_copy "$loud" 'echo "$name"' --why
}

spoken_failure() {
    ends 1 "of the program" run_copy "$loud" 'echo answer; echo "of the program" >&2' >"$work/printed" && grep -qx answer "$work/printed"
}

dead_program() { # OPTION..
    ends 137 "ended with status 137" run_copy "$loud" 'kill -KILL $$' "$@"
}

status_of() { # STATUS INPUT
    ends "$1" "" run_copy "$loud" "$2" --status
}

# The second of three files fails: the first is answered, the third is not, and the failure counts more than the refusal.
failure_among_files() {
    echo "echo refused=6" >"$work/first"
    echo "echo lost >&2" >"$work/second"
    ends 1 "no whole answer to $work/second" env PATH="$loud" "$copy/tozhenab" --status "$work/first" "$work/second" "$work/first" >"$work/printed" &&
        echo refused=6 | diff - "$work/printed"
}

newer_source() {
    touch "$copy/crates/newer"
    ends 0 "3 of 3: tozhenab" run_copy "$proving" : && prints tozhenab run_copy "$loud" 'echo "$name"'
}

# What rt printed last is shown, and its status given; the next run tries again.
failed_proof() {
    touch "$copy/crates/broken"
    for attempt in 1 2; do
        ends 3 "rt: FAILED: tozhenab" run_copy "$proving" 'echo answer' >"$work/printed" && [ ! -s "$work/printed" ] || return
    done
    grep -F "$copy/target/console/tozhenab.log" "$work/said" && rm "$copy/crates/broken"
}

as_reader_of_copy() { # STATUS TEXT
    echo 'echo "$name"' >"$work/input"
    ends "$1" "$2" as_reader env PATH="$loud" "$copy/tozhenab" "$work/input" >"$work/printed" && [ ! -e "$work/asked" ]
}

read_only_folder() {
    run_copy "$proving" : && chmod -R a-w "$copy" && as_reader_of_copy 0 "" && grep -qx tozhenab "$work/printed"
}

read_only_and_newer() {
    chmod u+w "$copy/crates" && touch "$copy/crates/newer_still" && chmod a-w "$copy/crates" &&
        as_reader_of_copy 0 "a source is newer than" && grep -qx tozhenab "$work/printed" && [ "$(wc -l <"$work/said")" -eq 1 ]
}

read_only_and_nothing_built() {
    chmod -R u+w "$copy" && rm -r "$copy/target" "$copy/crates/tozhenab/out" && chmod -R a-w "$copy" && as_reader_of_copy 2 "target cannot be written"
}

check "a copy with a stand-in for rt" make_copy
check "--help before proving" before_proving 0 "" --help
check "--version before proving" version_before_proving
check "an unknown option before proving" before_proving 2 "there is no option --wy" --wy "$worked"
check "a missing file before proving" before_proving 2 "there is no file $work/missing" "$worked" "$work/missing"
check "a folder before proving" before_proving 2 "$work is a folder" "$worked" "$work"
check "a closed input or output before proving" closed_before_proving
check "an unreadable file before proving" unreadable_file
check "no rt and no program" no_rt
check "the first build" first_build
check "the second run" second_run
check "--why runs tozhenab_why" why_is_another_program
check "a program that says something" spoken_failure
check "a program that dies" dead_program
check "a program that dies, with --status" dead_program --status
check "--status: refused=0 is accepted" status_of 0 'echo refused=0; echo more'
check "--status: refused=10 is refused" status_of 3 'echo refused=10; echo more'
check "--status: an empty answer is accepted" status_of 0 :
check "a failure among several files" failure_among_files
check "a newer source" newer_source
check "a failed proof" failed_proof
check "a read-only folder" read_only_folder
check "a read-only folder with a newer source" read_only_and_newer
check "a read-only folder with nothing built" read_only_and_nothing_built
