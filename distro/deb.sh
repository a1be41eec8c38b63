#!/bin/sh
# deb.sh STAGE VERSION MAINTAINER FOLDER: makes FOLDER/catzd_VERSION_ARCHITECTURE.deb of what `make install` put into
# STAGE, from the top of the repository. `make deb` calls it. It needs dpkg-deb, gzip and sed, and no debhelper.
#
# The package differs from `make install` in this: the unit runs as the user catzd, which postinst makes; man pages and
# changelog are compressed; and the configuration is a conffile. SOURCE_DATE_EPOCH is the time of all files.
set -eu

stage=$1 version=$2 maintainer=$3 folder=$4
time=${SOURCE_DATE_EPOCH:-$(git log -1 --format=%ct 2> /dev/null || stat -c %Y Makefile)}
export SOURCE_DATE_EPOCH="$time"
date=$(LC_ALL=C date -u -R -d "@$time")
architecture=$(dpkg --print-architecture)
unit=$stage/usr/lib/systemd/system/catzd.service
doc=$stage/usr/share/doc/catzd

# The newest version of a symbol of glibc that the program needs.
libc=$(LC_ALL=C grep -a -o 'GLIBC_[0-9][0-9.]*' "$stage/usr/sbin/catzd" | sed 's/GLIBC_//' | sort -V | tail -n 1)

grep -q '^DynamicUser=yes$' "$unit"
sed -i 's/^DynamicUser=yes$/User=catzd\nGroup=catzd/' "$unit"

fill() {
    sed "s|@VERSION@|$version|; s|@ARCHITECTURE@|$architecture|; s|@MAINTAINER@|$maintainer|; s|@LIBC@|${libc:-2.31}|
        s|@DATE@|$date|; s|@SIZE@|$size|" "distro/deb/$1"
}

size=0
fill changelog.in > "$doc/changelog"
cp distro/deb/copyright "$doc/copyright"
gzip -9n "$doc/changelog" "$stage"/usr/share/man/man*/*
size=$(du -k -s --apparent-size "$stage" | cut -f 1)

mkdir "$stage/DEBIAN"
fill control.in > "$stage/DEBIAN/control"
cp distro/deb/conffiles distro/deb/postinst distro/deb/prerm distro/deb/postrm "$stage/DEBIAN/"
(cd "$stage" && find usr -type f -print0 | LC_ALL=C sort -z | xargs -0 md5sum > DEBIAN/md5sums)

find "$stage" -type d -exec chmod 755 '{}' +
find "$stage/usr" "$stage/DEBIAN" -type f ! -perm /111 -exec chmod 644 '{}' +
chmod 755 "$stage/DEBIAN/postinst" "$stage/DEBIAN/prerm" "$stage/DEBIAN/postrm"
find "$stage" -exec touch -h -d "@$time" '{}' +
dpkg-deb --build --root-owner-group "$stage" "$folder/catzd_${version}_$architecture.deb"
