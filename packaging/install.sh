#!/bin/sh
# Installs Mallettriton @VERSION@ below a prefix, or removes it.
#
#     ./install.sh [--prefix DIR]                below DIR; without it, below /usr/local
#     ./install.sh --uninstall [--prefix DIR]    removes what was installed there, of any version
#
# Where the variable DESTDIR is set, all is put below $DESTDIR instead of / (for those who make packages). It writes nothing outside bin, libexec, lib, include and
# share of the prefix, and takes no file of another's. share/mallettriton/manifest lists what was installed: that is removed and nothing else.
set -eu
umask 022
here=$(dirname "$(realpath "$0")")
prefix=/usr/local
action=install

say() {
    printf 'install.sh: %s\n' "$*" >&2
}

fail() {
    say "$*"
    exit 1
}

while [ $# -gt 0 ]; do
    case $1 in
    --prefix)
        [ $# -gt 1 ] || fail "--prefix needs a folder"
        prefix=$2
        shift
        ;;
    --prefix=*) prefix=${1#*=} ;;
    --uninstall) action=uninstall ;;
    -h | --help)
        sed -n '2,/^set/s/^# \{0,1\}//p' "$0"
        exit
        ;;
    *) fail "there is no option $1; see ./install.sh --help" ;;
    esac
    shift
done
case $prefix in
/*) ;;
*) fail "the prefix must begin with /: $prefix" ;;
esac
to=${DESTDIR:-}$prefix
manifest=$to/share/mallettriton/manifest

# What is installed: the file here, a TAB, its place below the prefix.
list() (
    cd "$here"
    find bin libexec lib include share -type f | LC_ALL=C sort | sed 's/.*/&\t&/'
    find README.md LICENSE CHANGELOG.md PROVED.txt gate.log docs examples samples -type f | LC_ALL=C sort | sed 's,.*,&\tshare/doc/mallettriton/&,'
    printf 'install.sh\tshare/mallettriton/install.sh\n'
)

# A manifest has lines as sha256sum writes them, for files below the prefix, and lines 'folder NAME' for folders that were made for them.
listed_files() {
    [ ! -f "$manifest" ] || sed -n 's/^[0-9a-f]\{64\}  //p' "$manifest" | LC_ALL=C sort -u
}

# Makes a folder below the prefix with those around it, and tells which are new.
folder() {
    if [ "$1" != . ] && [ ! -d "$to/$1" ]; then
        folder "$(dirname "$1")"
        mkdir "$to/$1" || exit 1
        echo "folder $1"
    fi
}

# Removes a file if it is as it was installed.
remove() {
    if [ -e "$to/$1" ] || [ -L "$to/$1" ]; then
        if [ -f "$to/$1" ] && grep -qxF "$(sha256sum < "$to/$1" | cut -c 1-64)  $1" "$manifest"; then
            rm -f "$to/$1"
        else
            say "left where it is, since it was changed: $to/$1"
        fi
    fi
}

install() {
    [ -f "$here/SHA256SUMS" ] || fail "there is nothing to install here: run install.sh where the release is unpacked"
    (cd "$here" && sha256sum -c --quiet SHA256SUMS) >&2 || fail "nothing installed: the files here are not those of the release"
    [ "$(uname -sm)" = "Linux x86_64" ] || say "this is $(uname -sm); the programs and the library are for x86-64 Linux"
    list > "$room/list"
    cut -f 2 "$room/list" > "$room/after"
    listed_files > "$room/before"
    while IFS= read -r file; do
        [ ! -e "$to/$file" ] && [ ! -L "$to/$file" ] || grep -qxF "$file" "$room/before" || echo "$to/$file"
    done < "$room/after" > "$room/taken"
    if [ -s "$room/taken" ]; then
        cat "$room/taken" >&2
        fail "nothing installed: these files are there already, and are not of an earlier install"
    fi

    mkdir -p "$to"
    {
        [ ! -f "$manifest" ] || grep '^folder ' "$manifest" || :
        while IFS= read -r file; do
            folder "$(dirname "$file")"
        done < "$room/after"
        folder share/mallettriton
    } > "$room/folders"
    while IFS='	' read -r from file; do
        printf '%s  %s\n' "$(sha256sum < "$here/$from" | cut -c 1-64)" "$file"
    done < "$room/list" > "$room/files"
    # until all is done the manifest has both what was there and what comes, so that a broken install can be removed, or done again
    { cat "$room/files" "$room/folders" && { [ ! -f "$manifest" ] || cat "$manifest"; }; } > "$room/manifest"
    cp "$room/manifest" "$manifest"

    while IFS='	' read -r from file; do
        part=$to/$file.part
        cp "$here/$from" "$part"
        if [ -x "$here/$from" ]; then chmod 755 "$part"; else chmod 644 "$part"; fi
        mv -f "$part" "$to/$file"
    done < "$room/list"
    part=
    # files of the version before that this one has not
    while IFS= read -r file; do
        grep -qxF "$file" "$room/after" || remove "$file"
    done < "$room/before"
    cat "$room/files" "$room/folders" > "$manifest"
    chmod 644 "$manifest"
    say "installed @VERSION@ below $to. To remove it: sh '$prefix/share/mallettriton/install.sh' --uninstall --prefix '$prefix'"
}

uninstall() {
    [ -f "$manifest" ] || fail "nothing is installed below $to: there is no $manifest"
    listed_files > "$room/before"
    sed -n 's/^folder //p' "$manifest" | LC_ALL=C sort -r > "$room/folders"
    while IFS= read -r file; do
        remove "$file"
    done < "$room/before"
    rm -f "$manifest"
    # those that are empty now, the inner ones first
    while IFS= read -r folder; do
        [ ! -d "$to/$folder" ] || rmdir "$to/$folder" 2> /dev/null || :
    done < "$room/folders"
    say "removed from $to"
}

part=
room=$(mktemp -d)
trap 'rm -rf "$room" ${part:+"$part"}' EXIT
trap 'exit 130' INT TERM
$action
