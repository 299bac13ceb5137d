#!/usr/bin/env bash
# Proves and builds the engine, and installs what a host needs: install.sh PREFIX
#
#   PREFIX/lib/liblupiknam.a             the engine's calls
#   PREFIX/include/lupiknam.h            their header
#   PREFIX/lib/pkgconfig/lupiknam.pc     for pkg-config
#   PREFIX/bin/price_sheet               the price list of a circuit
#   PREFIX/bin/demo_round                a round of a circuit on one machine
#
# Files go below DESTDIR where it is set. Where LUPIKNAM_LIB names a folder with libengine.a, and LUPIKNAM_BIN one with price_sheet, these
# are taken and nothing is proved; else `rt` is needed.
set -eu
if [ $# -ne 1 ] || [ -z "$1" ]; then
    echo "usage: $0 PREFIX" >&2
    exit 2
fi

# folders are given from where the script is called
absolute() {
    case $1 in
    '' | /*) printf '%s\n' "$1" ;;
    *) printf '%s\n' "$PWD/$1" ;;
    esac
}
prefix=$(absolute "$1")
to=$(absolute "${DESTDIR-}")$prefix
library=$(absolute "${LUPIKNAM_LIB-}")
programs=$(absolute "${LUPIKNAM_BIN-}")
cd "$(dirname "${BASH_SOURCE[0]}")"

if [ -z "$library" ]; then
    tools/build engine
    library=target/staticlib
fi
if [ -z "$programs" ]; then
    tools/build price_sheet
    programs=target/bin
fi

version=$(sed -n 's/^#define LUPIKNAM_VERSION //p' include/lupiknam.h)
install -d "$to/lib/pkgconfig" "$to/include" "$to/bin"
install -m 644 "$library/libengine.a" "$to/lib/liblupiknam.a"
install -m 644 include/lupiknam.h "$to/include/lupiknam.h"
install -m 755 "$programs/price_sheet" "$to/bin/price_sheet"
"${CC:-cc}" -std=c11 -O2 -Iinclude host/demo_round.c "$library/libengine.a" -o "$to/bin/demo_round"
cat >"$to/lib/pkgconfig/lupiknam.pc" <<EOF
prefix=$prefix
libdir=\${prefix}/lib
includedir=\${prefix}/include

Name: lupiknam
Description: Garbled circuits for two to eight parties, proved
Version: $version
Cflags: -I\${includedir}
Libs: -L\${libdir} -llupiknam
EOF
echo "installed under $to"
