#!/bin/sh
# Installs the archive, the header and pkg-config's file:
#
#   PREFIX=/usr/local DESTDIR= ./install.sh
#
# PREFIX is where they are to be found later, DESTDIR a folder put before it for packaging. GII_ARCHIVE names another archive,
# a path from rust/.
set -eu
cd "$(dirname "$0")/rust"
archive=${GII_ARCHIVE:-../crates/gii_bch/out/libgii_bch.a}
prefix=${PREFIX:-/usr/local}
to=${DESTDIR:-}$prefix
case $prefix in
/*) ;;
*) echo "install.sh: PREFIX is to be a path from the root, not $prefix" >&2; exit 1 ;;
esac
if [ ! -f "$archive" ]; then
    echo "install.sh: there is no archive at $(realpath -m "$archive"): 'rt lib' in crates/gii_bch makes crates/gii_bch/out/libgii_bch.a" >&2
    exit 1
fi
version=$(sed -n 's/^#define GII_BCH_VERSION "\(.*\)"$/\1/p' ../include/gii_bch.h)

mkdir -p "$to/lib/pkgconfig" "$to/include"
install -m 644 "$archive" "$to/lib/libgii_bch.a"
install -m 644 ../include/gii_bch.h "$to/include/gii_bch.h"
cat > "$to/lib/pkgconfig/gii_bch.pc" <<TEXT
prefix=$prefix
includedir=\${prefix}/include
libdir=\${prefix}/lib

Name: gii_bch
Description: Pages of generalized integrated interleaved BCH codes, proved by machine
Version: $version
Cflags: -I\${includedir}
Libs: -L\${libdir} -lgii_bch
TEXT
chmod 644 "$to/lib/pkgconfig/gii_bch.pc"
echo "gii_bch $version is in $to/lib and $to/include"
