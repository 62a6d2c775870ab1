#!/usr/bin/env bash
# Installs this release into a prefix, or takes it away again. It needs bash and coreutils alone, and no network.
set -euo pipefail

usage() {
    cat << 'END'
Installs Residency's programs, manual pages, completions, pages and examples

Usage: install.sh [--prefix FOLDER] [--uninstall]

Options:
      --prefix FOLDER  Where to install [default: ~/.local]
      --uninstall      Takes away what was installed into the prefix, and the folders that were made for it
  -h, --help           Print help

Each file is compared with its sum first, and the programs are tried. Every file that is written is listed.
Nothing of anybody else is overwritten.

Exit status: 0 for done; 1 where a file is damaged, is in the way or could not be written; 2 for a wrong command line.
END
}

# fail TEXT [STATUS]
fail() {
    echo "install.sh: $1" >&2
    exit "${2-1}"
}

here=$(cd "$(dirname "$(readlink -f "$0")")" && pwd)
prefix=${HOME-}/.local
work=install
# The copy that an installation keeps serves to uninstall it.
[ ! -f "$here/installed" ] || prefix=$(cd "$here/../.." && pwd)
while [ $# -gt 0 ]; do
    case $1 in
    --prefix) [ $# -gt 1 ] || fail "--prefix wants a folder" 2; prefix=$2; shift ;;
    --prefix=*) prefix=${1#*=} ;;
    --uninstall) work=uninstall ;;
    -h | --help) usage; exit ;;
    *) fail "unexpected argument $1; --help tells what there is" 2 ;;
    esac
    shift
done
[ -n "$prefix" ] && [ "$prefix" != /.local ] || fail "neither HOME nor --prefix says where to install" 2
case $prefix in /*) ;; *) prefix=$PWD/$prefix ;; esac
# What an installation wrote: a path below the prefix in each line, then the folders that it made, each with a / at its end.
list=$prefix/lib/residency/installed

# take_away PATH.. : these files, what Python kept of them, and after them the folders that are empty now
take_away() {
    local -a paths=("$@")
    local path place kept
    for path in "${paths[@]}"; do
        case $path in
        */) continue ;;
        *.py)
            kept=$prefix/${path%/*}/__pycache__
            path=${path##*/}
            rm -f "$kept/${path%.py}".*.pyc || true
            rmdir "$kept" 2> /dev/null || true
            path=${kept%/__pycache__}/$path
            ;;
        *) path=$prefix/$path ;;
        esac
        rm -f "$path" || true
    done
    # The deepest folder comes last.
    for ((place = ${#paths[@]} - 1; place >= 0; place--)); do
        path=${paths[place]}
        case $path in
        /*/) rmdir "$path" 2> /dev/null || true ;;
        */) rmdir "$prefix/$path" 2> /dev/null || true ;;
        esac
    done
}

# take_away_installed : what the list names, and the list
take_away_installed() {
    local -a paths=()
    mapfile -t paths < "$list"
    rm -f "$list"
    take_away "${paths[@]}"
}

if [ "$work" = uninstall ]; then
    [ -f "$list" ] || fail "nothing of Residency is installed in $prefix"
    [ -w "$list" ] || fail "$list can't be written"
    take_away_installed
    echo "Residency is gone from $prefix."
    exit
fi

# What goes where: pairs of a path in the archive and one below the prefix.
from=()
to=()
# add ARCHIVE_PATH PREFIX_PATH : a file, or all files of a folder
add() {
    local path
    if [ -d "$here/$1" ]; then
        for path in "$here/$1"/*; do
            [ ! -e "$path" ] || add "$1/${path##*/}" "$2/${path##*/}"
        done
    else
        from+=("$1")
        to+=("$2")
    fi
}

[ -f "$here/SHA256SUMS" ] || fail "SHA256SUMS is missing beside it: start it from the unpacked archive"
(cd "$here" && sha256sum --check --quiet --strict SHA256SUMS) || fail "the archive is damaged; nothing was written"
for path in "$here"/bin/*; do
    program=${path##*/}
    # What is a script needs nothing of the C library.
    [ "$(head -c 2 "$path")" != "#!" ] || continue
    "$path" --help > /dev/null ||
        fail "$program doesn't run here: it is for Linux on x86-64 with the GNU C library 2.34 or later; nothing was written"
done
for path in bin lib share; do
    [ ! -d "$here/$path" ] || add "$path" "$path"
done
for path in README.md CHANGELOG.md VERDICT docs examples; do
    add "$path" "share/doc/residency/$path"
done
add install.sh lib/residency/install.sh

is_ours=()
[ ! -f "$list" ] || mapfile -t is_ours < "$list"
for path in "${to[@]}" "${list#"$prefix/"}"; do
    if [ -e "$prefix/$path" ] || [ -L "$prefix/$path" ]; then
        found=
        [ "$prefix/$path" != "$list" ] || [ ! -f "$list" ] || [ -L "$list" ] || found=yes
        for own in ${is_ours[@]+"${is_ours[@]}"}; do
            [ "$own" != "$path" ] || found=yes
        done
        [ -n "$found" ] || fail "$prefix/$path is in the way, and is none of Residency's; nothing was written"
    fi
done
# find_place : the nearest folder that is there, into `place`, and the ones below it that have to be made, into `made`
find_place() {
    made=()
    place=$prefix
    while [ ! -e "$place" ]; do
        made=("$place/" ${made[@]+"${made[@]}"})
        place=$(dirname "$place")
    done
}
find_place
[ -d "$place" ] && [ -w "$place" ] || fail "$place can't be written; --prefix FOLDER names another; nothing was written"
[ ! -f "$list" ] || take_away_installed
find_place

# make_folder PATH : makes a folder below the prefix, and notes each that wasn't there
make_folder() {
    [ ! -d "$prefix/$1" ] || return 0
    case $1 in */*) make_folder "${1%/*}" ;; esac
    mkdir -m 755 "$prefix/$1"
    made+=("$1/")
}

# undo : takes away what was written, where writing fails
undo() {
    trap - ERR
    take_away "${to[@]}" "${list#"$prefix/"}" ${made[@]+"${made[@]}"}
    fail "writing into $prefix failed; what was written is taken away again"
}
trap undo ERR
set -E
mkdir -p "$prefix"
for place in "${!to[@]}"; do
    make_folder "${to[place]%/*}"
    cp "$here/${from[place]}" "$prefix/${to[place]}"
    if [ -x "$here/${from[place]}" ]; then chmod 755 "$prefix/${to[place]}"; else chmod 644 "$prefix/${to[place]}"; fi
    echo "$prefix/${to[place]}"
done
printf '%s\n' "${to[@]}" ${made[@]+"${made[@]}"} > "$list"
echo "$list"
trap - ERR
echo
echo "$("$prefix/bin/residency" --version) is installed in $prefix; $prefix/lib/residency/install.sh --uninstall takes it away."
case :${PATH-}: in *":$prefix/bin:"*) ;; *) echo "Put $prefix/bin on the path: export PATH=\"$prefix/bin:\$PATH\"" ;; esac
if [ -f "$prefix/bin/residency-office" ] && ! python3 -c 'import sys; sys.exit(sys.version_info < (3, 9))' 2> /dev/null; then
    echo "The office's command wants Python 3.9 or later as python3; the other programs need nothing."
fi
