#!/bin/sh
# Installs lif below the folder PREFIX, as /usr/local or $HOME/.local, in the place of one that is there:
#
#     ./install.sh PREFIX
#
# PREFIX/lib/lif/uninstall.sh takes it away again. Linux on x86-64 is needed, with the C library of GNU.
set -eu
here=$(dirname -- "$(readlink -f -- "$0")")
if [ $# != 1 ] || [ -z "$1" ]; then
    echo "usage: $0 PREFIX" >&2
    exit 2
fi
mkdir -p -- "$1"
prefix=$(readlink -f -- "$1")
if [ -f "$prefix/lib/lif/uninstall.sh" ]; then sh "$prefix/lib/lif/uninstall.sh"; fi
# The list has each folder before what is in it.
made=''
while read -r file; do
    case $file in
    */)
        if [ -d "$prefix/$file" ]; then continue; fi
        mkdir -- "$prefix/$file"
        made="$file $made"
        ;;
    *)
        # What is there is replaced and not written to, also where it is a link.
        rm -f -- "$prefix/$file"
        cp -pP -- "$here/files/$file" "$prefix/$file"
        ;;
    esac
done <"$here/FILES"
cp -p -- "$here/FILES" "$here/uninstall.sh" "$prefix/lib/lif/"
echo "$made" >"$prefix/lib/lif/FOLDERS"
echo "lif is $prefix/bin/lif"
