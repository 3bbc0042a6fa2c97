# What the packages have in common. Read by `build` here and by those of the companions, which set `top`.

maintainer='Guzmerany maintainers <maintainers@users.noreply.guzmerany.example>'

# The licences, as Debian asks for them. A file beside it has those of what else is in the package.
write_copyright() {
    cat <<END
Format: https://www.debian.org/doc/packaging-manuals/copyright-format/1.0/
Upstream-Name: Guzmerany

Files: *
Copyright: $(sed -n 's/^Copyright (c) //p' "$top/LICENSE-MIT")
License: Expat or Apache-2.0

END
    [ $# = 0 ] || { cat -- "$1" && echo; }
    cat <<END
License: Expat
$(tail -n +5 "$top/LICENSE-MIT" | sed 's/^$/./; s/^/ /')

License: Apache-2.0
 On Debian systems the full text of the Apache License 2.0 is in
 /usr/share/common-licenses/Apache-2.0.
END
}

# The version of the last release, or of the one that is made ready.
tell_version() {
    sed -n 's/^## \([0-9.]*\)$/\1/p' "$top/CHANGELOG.md" | head -n 1
}

# The time of all files: of the last commit, or that of the changelog's file where there is no repository.
find_epoch() {
    epoch=${SOURCE_DATE_EPOCH:-}
    if [ -z "$epoch" ]; then
        epoch=$(git -C "$top" log -1 --format=%ct 2>/dev/null) ||
            epoch=$(date -u -r "$top/CHANGELOG.md" +%s)
    fi
    export SOURCE_DATE_EPOCH=$epoch
}

set_times() {
    find "$1" -exec touch -h -d "@$epoch" {} +
}

# Makes a package of a folder that has its DEBIAN/control: ROOT, and the package.
make_deb() {
    chmod 755 "$1"
    set_times "$1"
    dpkg-deb --root-owner-group --uniform-compression -Zxz -b "$1" "$2" >/dev/null
}

# Puts a program in Python into a folder that stands for the root: NAME, and the folder with the program, its package of
# modules and its man page.
stage_python() {
    local name=$1 here=$2 files=$root/usr/share/$1 doc=$root/usr/share/doc/$1 modules
    modules=${name//-/_}
    install -d "$root/DEBIAN" "$root/usr/bin" "$root/usr/share/man/man1" "$files/$modules" "$doc"
    install -m 755 "$here/$name" "$files"
    (cd "$here" && find "$modules" -type f ! -name '*.pyc' -print0 | xargs -0 -I{} install -D -m 644 {} "$files/{}")
    ln -s "../share/$name/$name" "$root/usr/bin/$name"
    sed "s/@VERSION@/$version/" "$here/$name.1" | gzip -9n >"$root/usr/share/man/man1/$name.1.gz"
    write_copyright >"$doc/copyright"
}
