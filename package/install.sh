#!/bin/sh
# Installs deals below a folder, as /usr/local or "$HOME/.local", or removes it.
#
# sh install.sh PREFIX            installs; what an earlier version had beside it is removed
# sh install.sh --remove PREFIX   removes all that was installed
#
# PREFIX/share/doc/deals/installed lists what was installed, and this file is beside it.
set -eu

usage() {
    echo "usage: sh install.sh PREFIX, or sh install.sh --remove PREFIX" >&2
    exit 2
}

# Removes these files, and those of these folders that are empty then. The names have no spaces.
remove() {
    below=$1
    shift
    for name in "$@"; do
        case $name in
            */) rmdir "$below/$name" 2>/dev/null || true ;;
            *) rm -f "$below/$name" "$below/$name.new" ;;
        esac
    done
}

# Makes a folder and those above it; the new ones are listed, the deepest first.
make_folder() {
    [ -d "$1/$2" ] && return 0
    case $2 in
        */*) make_folder "$1" "${2%/*}" ;;
    esac
    mkdir "$1/$2"
    made="$2/ $made"
}

# Refuses a place where a folder has the name of a file.
look_at() {
    for name in $files "$script" "$list"; do
        if [ -d "$1/$name" ]; then
            echo "install.sh: $1/$name is a folder: move it away, and nothing was installed" >&2
            exit 1
        fi
    done
}

# Copies all files beside their places, so that nothing of an earlier version is touched if one of them fails.
copy_all() {
    for name in $files; do
        make_folder "$1" "${name%/*}"
        cp "$here/files/$name" "$1/$name.new"
        chmod "$(if [ -n "$(find "$here/files/$name" -perm -100)" ]; then echo 755; else echo 644; fi)" "$1/$name.new"
    done
    make_folder "$1" "${list%/*}"
    cp "$here/install.sh" "$1/$script.new"
    printf '%s\n' $files "$script" "$list" $made $earlier >"$1/$list.new"
}

# Removes what was copied, and the folders for it.
undo() {
    for name in $files "$script" "$list"; do
        rm -f "$prefix/$name.new"
    done
    remove "$prefix" $made
    echo "install.sh: nothing was installed" >&2
}

# Until all is in its place, the list has what an earlier version had too, so that all can be removed.
install_all() {
    made=''
    earlier=''
    [ ! -f "$1/$list" ] || earlier=$(cat "$1/$list")
    trap undo EXIT
    trap 'exit 1' HUP INT TERM
    copy_all "$1"
    mv -f "$1/$list.new" "$1/$list"
    trap - EXIT HUP INT TERM
    for name in $files "$script"; do
        mv -f "$1/$name.new" "$1/$name"
    done
    for name in $earlier; do
        case " $(echo $files) $script $list " in
            *" $name "*) ;;
            *) remove "$1" "$name" ;;
        esac
    done
    for name in $earlier; do
        case $name in */) [ ! -d "$1/$name" ] || made="$made$name " ;; esac
    done
    printf '%s\n' $files "$script" "$list" $made >"$1/$list.new"
    mv -f "$1/$list.new" "$1/$list"
}

# Says how the program is found by its name, if it isn't yet.
say_path() {
    bin=$(CDPATH='' cd -- "$1/bin" && pwd)
    case ":$PATH:" in
        *":$bin:"*) return 0 ;;
    esac
    quoted=$(printf '%s\n' "$bin" | sed "s/'/'\\\\''/g")
    echo "deals is in $bin, which is not on the PATH. To put it there (for good: in ~/.profile):"
    echo "export PATH='$quoted':\"\$PATH\""
}

script=share/doc/deals/install.sh
list=share/doc/deals/installed
[ $# -gt 0 ] || usage
case $1 in
    --remove)
        [ $# = 2 ] && [ -n "$2" ] || usage
        [ -f "$2/$list" ] || {
            echo "install.sh: nothing of deals was installed below $2 by this script" >&2
            exit 1
        }
        remove "$2" $(cat "$2/$list")
        ;;
    -*) usage ;;
    *)
        [ $# = 1 ] && [ -n "$1" ] || usage
        case $0 in
            */*) here=${0%/*} ;;
            *) here=. ;;
        esac
        [ -d "$here/files" ] || {
            echo "install.sh: the files to install are not beside it" >&2
            exit 1
        }
        umask 022
        files=$(CDPATH='' cd -- "$here/files" && find . -type f | sed 's,^\./,,' | sort)
        look_at "$1"
        prefix=$1
        mkdir -p "$1"
        install_all "$1"
        say_path "$1"
        ;;
esac
