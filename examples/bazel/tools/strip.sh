#!/bin/sh
# strip.sh PROGRAM CLASSES HEADERS: the headers of a folder of class files.
#
# In a sandbox the files of a folder are symbolic links, and `ijar` passes links below a root over.
# So it is handed a copy with the files themselves.
set -eu
copy=$3.classes
rm -rf "$copy"
mkdir -p "$copy" "$3"
cp -RL "$2/." "$copy"
"$1" ijar --input "$copy" --output "$3"
rm -rf "$copy"
