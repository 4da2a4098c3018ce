#!/bin/sh
# Builds the archive for C, crates/hawkrusset/out/libhawkrusset.a, and puts it into target/staticlib/ under its own name and under the five names that
# its parts had: a program in C that links libconsole.a, librestore.a, libplayback.a, libwatch.a or libexport.a, one or several, finds its calls there.
# With the argument `built` an archive that is there is taken as it is.
set -eu
cd "$(dirname "$0")/.."
archive=crates/hawkrusset/out/libhawkrusset.a
if [ "${1-}" != built ] || [ ! -e "$archive" ]; then
    (cd crates/hawkrusset && rt lib)
fi
mkdir -p target/staticlib
for name in hawkrusset console restore playback watch export; do
    cp "$archive" "target/staticlib/lib$name.a"
done
