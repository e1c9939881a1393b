# The argument of ./install and ./uninstall. Whoever sources this gives `usage`.

# Sets `prefix`, from the root; `top`, the folder that all places are below; and `list`, where the places are listed.
read_prefix() { # ARGUMENT..
    case ${1-} in
    --help) usage; exit ;;
    --) shift ;;
    -*) set -- ;;
    esac
    [ $# -eq 1 ] && [ -n "$1" ] || { usage >&2; exit 2; }
    case $1 in /*) prefix=$1 ;; *) prefix=$PWD/$1 ;; esac
    top=${DESTDIR-}$prefix
    list=$top/libexec/tozhenab/installed
}
