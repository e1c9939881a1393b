# The installed copy, in a folder with a blank in its name.
prefix="$work/in stalled"

files_of_prefix() {
    (cd "$prefix" && find . -type f | sort)
}

installs() {
    "$home/install" "$prefix" && cat >"$work/expected" <<'EOF'
./bin/tozhenab
./include/tozhenab.h
./lib/libtozhenab.a
./lib/pkgconfig/tozhenab.pc
./libexec/tozhenab/front.sh
./libexec/tozhenab/installed
./libexec/tozhenab/installed.sh
./libexec/tozhenab/tozhenab
./libexec/tozhenab/tozhenab_why
./libexec/tozhenab/version
./share/man/man1/tozhenab.1
EOF
    files_of_prefix | diff "$work/expected" -
}

installs_again() {
    cp "$prefix/libexec/tozhenab/installed" "$work/list" && "$home/install" "$prefix" && diff "$work/list" "$prefix/libexec/tozhenab/installed" &&
        files_of_prefix | diff "$work/expected" -
}

# Through a link, without rt, and as one who owns nothing there.
installed_answers() {
    ln -s "$prefix/bin/tozhenab" "$work/linked" && answers_examples 0 as_reader env PATH="$without_rt" "$work/linked"
}

installed_why() {
    "$home/tozhenab" --why "$refused" >"$work/expected" && "$prefix/bin/tozhenab" --why "$refused" | diff "$work/expected" -
}

installed_version() {
    "$home/tozhenab" --version >"$work/expected" && "$prefix/bin/tozhenab" --version | diff "$work/expected" -
}

moved_prefix() {
    mv "$prefix" "$work/moved" && answers_examples 3 "$work/moved/bin/tozhenab" --status && mv "$work/moved" "$prefix"
}

flags() {
    if command -v pkg-config >/dev/null; then
        PKG_CONFIG_PATH="$prefix/lib/pkgconfig" pkg-config --cflags --libs tozhenab
    else
        echo "-I'$prefix/include' -L'$prefix/lib' -ltozhenab"
    fi
}

# pkg-config quotes the blank for a shell to read.
installed_library() {
    flags=$(flags) && eval "${CC:-cc} -std=c99 -o '$work/program' '$home/host/examples/run_program.c' $flags" &&
        "$work/program" | diff "$home/host/examples/run_program.out" -
}

manual_page() {
    page="$prefix/share/man/man1/tozhenab.1"
    for name in NAME SYNOPSIS DESCRIPTION OPTIONS "EXIT STATUS"; do grep -qx ".SH $name" "$page" || return; done
    ! command -v groff >/dev/null || ends 0 "" groff -t -man -Tutf8 -ww "$page" >"$work/printed"
}

uninstalls() {
    "$home/uninstall" "$prefix" && [ ! -e "$prefix" ]
}

# What was there before stays: a file, and a folder though it is empty.
keeps_what_is_not_its_own() {
    mkdir -p "$work/stage$work/own/lib" "$work/stage$work/own/share" && touch "$work/stage$work/own/lib/other" &&
        (cd "$work" && DESTDIR="$work/stage" "$home/install" own && DESTDIR="$work/stage" "$home/uninstall" own) &&
        printf '%s\n' . ./lib ./lib/other ./share >"$work/expected" && (cd "$work/stage$work/own" && find . | sort) | diff "$work/expected" -
}

wrong_arguments() { # COMMAND
    ends 2 "usage: ./$1 PREFIX" "$home/$1" && ends 2 "usage: ./$1 PREFIX" "$home/$1" --prefix "$prefix" && "$home/$1" --help | grep -q "usage: ./$1"
}

check "install" installs
check "install over what is installed" installs_again
check "the installed program" installed_answers
check "the installed program, --why" installed_why
check "the installed program, --version" installed_version
check "the installed program, moved" moved_prefix
check "the installed library" installed_library
check "the manual page" manual_page
check "uninstall" uninstalls
check "uninstall with nothing installed" ends 2 "is tozhenab installed there?" "$home/uninstall" "$prefix"
check "uninstall keeps what is not its own" keeps_what_is_not_its_own
check "install without a PREFIX" wrong_arguments install
check "uninstall without a PREFIX" wrong_arguments uninstall
