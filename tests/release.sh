#!/bin/sh
# The script dev/release, over a small copy of the checkout with a stand-in for the program that the gate leaves. Prints each case
# that fails, and ends with status 1 where one does.
set -u

here=$(CDPATH='' cd -P -- "$(dirname -- "$0")/.." && pwd -P)
room=$(mktemp -d)
trap 'rm -rf -- "$room"' EXIT
copy=$room/copy
gated=$copy/crates/xetra_day/out/xetra_day
failed=0

# Compares what a case gave with what is wanted of it.
check() {
    [ "$3" = "$2" ] && return
    printf 'release, %s: wanted\n%s\nand got\n%s\n' "$1" "$2" "$3"
    failed=1
}

call() {
    "$copy/dev/release" "$@" >"$room/out" 2>"$room/err"
}

# A gate that leaves this program.
run_gate() {
    "$copy/dev/release" --begin
    sleep 0.05
    printf '#!/bin/sh\necho %s\n' "$1" >"$gated"
    chmod +x "$gated"
    call --check
}

mkdir -p "$room/bin" "$copy/dev" "$copy/docs" "$copy/examples" "$copy/crates/xetra_day/src" "$copy/crates/xetra_day/out" \
    "$copy/crates/xm_program/src" "$copy/crates/xetra_cases/data"
cp -- "$here/dev/release" "$here/dev/sources.sh" "$copy/dev"
printf '#!/bin/sh\necho stand-in\n' >"$room/bin/rt"
chmod +x "$room/bin/rt"
PATH=$room/bin:$PATH
printf 'xm_program: clap\nxetra_day: xm_program\n' >"$copy/crates.txt"
echo 'const VERSION: &str = "7.0.0";' >"$copy/crates/xm_program/src/command_lines.rt"
echo 'fn main() {}' >"$copy/crates/xetra_day/src/main.rt"
for file in README.md CHANGELOG.md CONTRIBUTING.md docs/PAGE.md examples/segment.toml crates/xetra_cases/data/one.orders.csv \
    crates/xetra_cases/index.json; do
    echo "$file" >"$copy/$file"
done
git -C "$copy" init -q
git -C "$copy" add README.md CHANGELOG.md CONTRIBUTING.md docs examples crates/xetra_cases
echo left over >"$copy/docs/PAGE.md~"

unwritten="release: the last green gate wasn't of these sources: call ./test, which may end with another dist/ than is wanted"
call
check 'before any gate, status' 1 $?
check 'before any gate' "$unwritten" "$(cat "$room/err")"
call --check
check 'a check before any gate, status' 1 $?
check 'a check before any gate' 'release: no gate was begun: call ./test' "$(cat "$room/err")"
"$copy/dev/release" --begin
call --check
check 'a gate that left no program, status' 1 $?
run_gate 'a program'
check 'no dist/, status' 1 $?
check 'no dist/' 'release: there is no program in dist/: call dev/release, and commit dist/' "$(cat "$room/err")"
call
check 'after a gate, status' 0 $?
check 'after a gate, the program' 'a program' "$("$copy/dist/xetra-day")"
check 'after a gate, of what it is' "kit stand-in
program $(sha256sum <"$gated" | cut -d ' ' -f 1)" "$(sed '/^sources [0-9a-f]\{64\}$/d' "$copy/dist/BUILT")"
run_gate 'a program'
check 'what the gate built, status' 0 $?

echo >>"$copy/dist/xetra-day"
run_gate 'a program'
check 'a byte more, status' 1 $?
check 'a byte more' "release: dist/xetra-day isn't the program that the gate built of these sources: call dev/release, and commit dist/" \
    "$(cat "$room/err")"
call
run_gate 'a program'
check 'made anew, status' 0 $?
echo '// edited' >>"$copy/crates/xetra_day/src/main.rt"
call
check 'a changed source before a gate, status' 1 $?
call --check
check 'a source that was changed behind the gate, status' 1 $?
check 'a source that was changed behind the gate' 'release: the sources were changed while the gate ran: call ./test again' "$(cat "$room/err")"
call
check 'a release of it, status' 1 $?
run_gate 'a program'
check 'a changed source, status' 1 $?
check 'a changed source' "release: dist/BUILT doesn't say of what dist/xetra-day is: call dev/release, and commit dist/" "$(cat "$room/err")"
call
run_gate 'a program'
check 'a changed source, made anew, status' 0 $?

for folder in first second; do
    call --archive "$room/$folder"
    check "an archive in a folder $folder, status" 0 $?
done
file=xetra-day-7.0.0-x86_64-linux.tar.gz
check 'two archives' same "$(cmp -s "$room/first/$file" "$room/second/$file" && echo same)"
check 'the sums' "$file: OK" "$(cd "$room/first" && sha256sum -c SHA256SUMS)"
check 'what an archive has' 'xetra-day-7.0.0/CHANGELOG.md
xetra-day-7.0.0/CONTRIBUTING.md
xetra-day-7.0.0/README.md
xetra-day-7.0.0/cases/index.json
xetra-day-7.0.0/cases/one.orders.csv
xetra-day-7.0.0/docs/PAGE.md
xetra-day-7.0.0/examples/segment.toml
xetra-day-7.0.0/xetra-day' "$(tar -tf "$room/first/$file" | grep -v '/$')"
for words in '--all' '--archive'; do
    call $words
    check "mistaken words: $words" 2 $?
done
exit "$failed"
