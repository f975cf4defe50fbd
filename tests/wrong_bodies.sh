#!/bin/sh
# The script wrong-bodies, over a small repository, with a stand-in for rt that tells what its clone has. Prints each case that
# fails, and ends with status 1 where one does.
set -u

here=$(CDPATH='' cd -P -- "$(dirname -- "$0")/.." && pwd -P)
room=$(mktemp -d)
failed=0

# Whether a stand-in that waits is there.
is_waiting() {
    [ -s "$room/waiting" ] && kill -0 "$(cat "$room/waiting")" 2>/dev/null
}

trap 'is_waiting && kill "$(cat "$room/waiting")"; rm -rf -- "$room"' EXIT
trap 'exit 1' HUP INT TERM

# Compares what a case gave with what is wanted of it.
check() {
    [ "$3" = "$2" ] && return
    printf 'wrong-bodies, %s: wanted\n%s\nand got\n%s\n' "$1" "$2" "$3"
    failed=1
}

# low has two edits beside the gate's one, high stands on it and has none.
mkdir -p "$room/bin" "$room/clones" "$room/copy/dev" "$room/copy/crates/low/src" "$room/copy/crates/low/out" "$room/copy/crates/low/must-fail" \
    "$room/copy/crates/low/wrong-bodies" "$room/copy/crates/high/src"
cp -- "$here/dev/wrong-bodies" "$room/copy/dev"
printf '# libraries\nlow: slab\nhigh tests_may=Wait: low\n' >"$room/copy/crates.txt"
echo 'Handles allowed: none.' >"$room/copy/HANDLES"
printf 'fn first() {}\n\n#[inline]\npub fn second() {\n    first()\n}\n' >"$room/copy/crates/low/src/lib.rt"
touch "$room/copy/crates/low/must-fail/of_the_gate.edit" "$room/copy/crates/low/wrong-bodies/one.edit" \
    "$room/copy/crates/low/wrong-bodies/two.edit"
cat >"$room/bin/rt" <<END
#!/bin/sh
{ pwd; cat crates.txt HANDLES crates/low/src/lib.rt; ls crates/low/must-fail; } >"$room/clone"
[ -e "$room/waits" ] && { echo \$\$ >"$room/waiting"; exec sleep 600; }
cat "$room/said"
END
chmod +x "$room/bin/rt"
PATH=$room/bin:$PATH
TMPDIR=$room/clones
export TMPDIR

call() {
    "$room/copy/dev/wrong-bodies" "$@" >"$room/out" 2>"$room/err"
}

cat >"$room/said" <<'END'
rt: must-fail low/one.edit: refused, as it must be: note: src/lib.rt:3:1: it is not proved that what the function ensures holds when it returns (`returns-in-Some-clause-orders`); `search` gave up
rt: must-fail low/two.edit: refused, as it must be: ./proofs/lib/second/Answers.antt:43:19: error: `invariant_of-self`: computed as far as they go, the two types differ
END
call low
check 'all refused, status' 0 $?
check 'all refused, by what' 'low/one: refused by second in src/lib.rt, clause orders
low/two: refused by lib::second, goal invariant_of-self' "$(cat "$room/out")"
check 'what the clone has' '# libraries
low: slab
high tests_may=Wait: low
Handles allowed: none.
fn first() {}

#[inline]
pub fn second() {
    first()
}
one.edit
two.edit' "$(sed 1d "$room/clone")"
check 'all refused, what it leaves' '' "$(ls "$room/clones")"
sed 's/refused, as it must be.*first.*/x/; s/\(two.edit: \).*/\1NOT REFUSED: the crate is still proved with this edit/' "$room/said" >"$room/said.new"
mv -- "$room/said.new" "$room/said"
call low
check 'one not refused, status' 1 $?
check 'one not refused, which' 'low/two: NOT REFUSED: the crate is still proved with this edit' "$(sed -n 2p "$room/out")"
echo 'rt: must-fail low/one.edit: BAD EDIT: there is no file src/gone.rt' >"$room/said"
call
check 'one that no longer applies, status' 1 $?
check 'one that no longer applies, and one that rt did not tell of' 'low/one: BAD EDIT: there is no file src/gone.rt
low/two: NOT TRIED' "$(cat "$room/out")"
call high
check 'a crate without wrong bodies, status' 0 $?
check 'a crate without wrong bodies' 'high: it has no wrong bodies beside those of the gate' "$(cat "$room/out")"
call low nowhere
check 'a mistaken name, status' 2 $?
check 'a mistaken name' 'wrong-bodies: crates.txt names no crate nowhere' "$(cat "$room/err")"

# A shell ignores an interrupt of what it runs in the background, so that one is not tried.
: >"$room/waits"
for signal in HUP TERM; do
    rm -f -- "$room/waiting"
    "$room/copy/dev/wrong-bodies" low >"$room/out" 2>"$room/err" &
    called=$!
    until [ -s "$room/waiting" ]; do sleep 0.1; done
    kill -s "$signal" "$called"
    wait "$called" 2>/dev/null
    check "a call that $signal ends, by which signal" "$signal" "$(kill -l $?)"
    check "a call that $signal ends, whether its rt still runs" no "$(is_waiting && echo yes || echo no)"
    check "a call that $signal ends, what it leaves" '' "$(ls "$room/clones")"
done
exit "$failed"
