#!/bin/sh
# Takes away what install.sh put below the folder PREFIX, in which this stands as lib/lif/uninstall.sh: the files, and the folders
# that it made, where nothing else is in them.
set -eu
lib=$(dirname -- "$(readlink -f -- "$0")")
prefix=${lib%/lib/lif}
if [ "$prefix" = "$lib" ] || [ ! -f "$lib/FILES" ] || [ ! -f "$lib/FOLDERS" ]; then
    echo "$0: it stands in no folder PREFIX/lib/lif beside the lists FILES and FOLDERS" >&2
    exit 1
fi
cd -- "$prefix"
folders=$(cat lib/lif/FOLDERS)
while read -r file; do
    case $file in
    */) ;;
    *) rm -f -- "$file" ;;
    esac
done <lib/lif/FILES
# What Python kept of the modules goes too.
rm -rf -- lib/lif/lif_tools/__pycache__ lib/lif/FILES lib/lif/FOLDERS lib/lif/uninstall.sh
for folder in $folders; do
    rmdir -- "$folder" 2>/dev/null || :
done
