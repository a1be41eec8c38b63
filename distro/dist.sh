#!/bin/sh
# dist.sh VERSION FOLDER: makes FOLDER/catzd-VERSION.tar.gz of the sources, from the top of the repository.
#
# Names are sorted, owner and modes fixed, and each file has the same time, so the same files give the same octets. In a
# git checkout the files are those that git tracks, as they are in the working tree, and the time is that of the last
# commit. Elsewhere, as in an unpacked archive, they are all files but those that a build or a run made, and the time is
# that of the Makefile. SOURCE_DATE_EPOCH gives another time.
set -eu

name=catzd-$1
mkdir -p "$2"
list=$(mktemp)
trap 'rm -f "$list"' EXIT

if [ -e .git ]; then
    git ls-files -z > "$list"
    time=$(git log -1 --format=%ct)
else
    find . -name .git -prune -o -type d '(' -name out -o -name __pycache__ ')' -prune \
        -o -type f ! -name 'catzd.store*' -printf '%P\0' > "$list"
    time=$(stat -c %Y Makefile)
fi

LC_ALL=C sort -z -o "$list" "$list"
tar --create --file "$2/$name.tar" --format=gnu --null --no-recursion --files-from "$list" --transform "s|^|$name/|" \
    --owner=root:0 --group=root:0 --mode=u=rwX,go=rX --mtime="@${SOURCE_DATE_EPOCH:-$time}"
gzip -9nf "$2/$name.tar"
echo "$2/$name.tar.gz"
