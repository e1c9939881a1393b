# The programs of an installed copy, as ./install put them beside this file.

version() {
    cat "$parts/version"
}

ready() { # NAME
    program=$parts/$1
}
