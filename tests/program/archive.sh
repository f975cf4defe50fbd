#!/bin/sh
# The archive that dev/release makes: its program prints the statement of the README where there is nothing but the C library.
# Prints what is wrong, and ends with status 1 where something is. Where nobody may change the root of a process, it says so.
set -u

here=$(CDPATH='' cd -P -- "$(dirname -- "$0")/../.." && pwd -P)
room=$(mktemp -d)
trap 'rm -rf -- "$room"' EXIT
tree=$room/tree

fail() {
    printf 'archive: %s\n' "$1"
    exit 1
}

"$here/dev/release" --archive "$room" >"$room/said" 2>&1 || fail "there is none: $(cat -- "$room/said")"
(cd -- "$room" && sha256sum --quiet -c SHA256SUMS) || fail "SHA256SUMS has another sum"
mkdir -- "$tree"
tar --directory "$tree" --strip-components=1 -xzf "$room"/xetra-day-*-x86_64-linux.tar.gz || fail "it can't be unpacked"

# The C library, and what loads it: all that the program names.
libraries=$(ldd "$tree/xetra-day" | sed -n 's/.*[[:space:]]\(\/[^ ]*\) (0x.*/\1/p')
for library in $libraries; do
    mkdir -p -- "$tree/$(dirname -- "$library")"
    cp -L -- "$library" "$tree/$library"
done
case $(printf '%s\n' "$libraries" | sed 's/.*\///' | LC_ALL=C sort | tr '\n' ' ') in
    'ld-linux-x86-64.so.2 libc.so.6 ') ;;
    *) fail "the program wants more than the C library: $libraries" ;;
esac

if [ "$(id -u)" -eq 0 ]; then
    inside="chroot $tree"
    may='chroot / true'
else
    inside="unshare --map-root-user --root=$tree"
    may='unshare --map-root-user true'
fi
if ! $may 2>"$room/said"; then
    printf 'archive: not tried over the C library alone, as nobody may: %s\n' "$(cat -- "$room/said")"
    exit 0
fi
$inside /xetra-day run examples/segment.toml examples/small_day.orders.csv >"$room/statement" 2>&1 ||
    fail "its program ends with status $?: $(cat -- "$room/statement")"
cmp -s -- "$room/statement" "$tree/examples/small_day.statement" || fail "its program prints another statement"
[ -s "$tree/cases/index.json" ] && [ -s "$tree/docs/FORMATS.md" ] && [ -s "$tree/README.md" ] ||
    fail "cases, documents or the README are missing"
