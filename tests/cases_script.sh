#!/bin/sh
# The script cases, over a small folder of cases, with a stand-in for the program that gives what lies beside it. Prints each
# call that fails, and ends with status 1 where one does.
set -u

here=$(CDPATH='' cd -P -- "$(dirname -- "$0")/.." && pwd -P)
room=$(mktemp -d)
failed=0
trap 'rm -rf -- "$room"' EXIT
trap 'exit 1' HUP INT TERM

# Compares what a call gave with what is wanted of it.
check() {
    [ "$3" = "$2" ] && return
    printf 'cases, %s: wanted\n%s\nand got\n%s\n' "$1" "$2" "$3"
    failed=1
}

copy=$room/copy
data=$copy/crates/xetra_cases/data
# What the stand-in gives for an order file: the files NAME.statement and NAME.answers.csv, or NAME.fault. Its levels are a name, as
# are its trades and its events. What it leaves of a day that opens with a carry file is that file, and the name of each order file.
gives=$room/gives
mkdir -p "$data" "$gives" "$copy/dev" "$copy/dist" "$room/rooms"
cp -- "$here/dev/cases" "$copy/dev"
TMPDIR=$room/rooms
export TMPDIR

cat >"$copy/xetra-day" <<END
#!/bin/sh
[ ! -e "$room/unbuilt" ] || exit 3
[ "\$1" != --path ] || echo "$copy/dist/xetra-day"
END
cat >"$copy/dist/xetra-day" <<END
#!/bin/sh
command=\$1 segment=\$2 carried=\$3
shift 2
[ "\$command" = run ] || shift
name=\$(basename "\$1" .orders.csv)
rm -f "$room/orders"
while [ "\${1#--}" = "\$1" ]; do
    basename "\$1" >>"$room/orders"
    shift
done
if [ "\$command" = carry ]; then
    cat "\$carried" "$room/orders" >"\$2"
    cat "$gives/\$name.statement"
    exit
fi
echo "\$segment" >"$room/segment"
[ ! -e "$room/killed" ] || { echo 'gone' >&2; exit 137; }
[ ! -e "$gives/\$name.fault" ] || { true >"\$2"; cat "$gives/\$name.fault" >&2; exit 1; }
cat "$gives/\$name.answers.csv" >"\$2"
echo "trades of \$name" >"\$4"
echo "events of \$name" >"\$6"
echo "\$name" >"\$8"
cat "$gives/\$name.statement"
END
chmod +x "$copy/xetra-day" "$copy/dist/xetra-day"

# Two days and a fault, each as it is stored.
touch "$data/segment.toml" "$data/one.segment.toml"
for name in one two; do
    printf 'DAY of %s\nROWS 1 0\n' "$name" >"$gives/$name.statement"
    printf 'record\n2,%s\n' "$name" >"$gives/$name.answers.csv"
    touch "$data/$name.orders.csv"
done
echo 'xetra-day: orders: line 2: BadField' >"$gives/wrong.fault"
touch "$data/wrong.orders.csv"
store_all() {
    cp -- "$gives"/* "$data"
}
store_all

call() {
    "$copy/dev/cases" "$@" >"$room/out" 2>"$room/err"
}

call
check 'all as stored, status' 0 $?
check 'all as stored, count' '3 cases, 0 differ' "$(cat "$room/out")"
check 'the common segment' "$data/segment.toml" "$(cat "$room/segment")"
call one
check 'a segment of its own' "$data/one.segment.toml" "$(cat "$room/segment")"
check 'one of them, count' '1 cases, 0 differ' "$(cat "$room/out")"
check 'one order file' 'one.orders.csv' "$(cat "$room/orders")"
touch "$data/one.orders.2.csv" "$data/one.orders.3.csv" "$data/one.orders.5.csv"
call one
check 'more order files, up to the first number that is not there' 'one.orders.csv
one.orders.2.csv
one.orders.3.csv' "$(cat "$room/orders")"
call --list
check 'list, with more order files' '3 cases, 0 differ' "$(tail -n 1 "$copy/crates/xetra_cases/stdout")"
rm -- "$data/one.orders.2.csv" "$data/one.orders.3.csv" "$data/one.orders.5.csv"

printf 'DAY of one\nROWS 2 0\n' >"$data/one.statement"
echo '3,two' >>"$data/two.answers.csv"
echo 'xetra-day: orders: line 3: BadField' >"$data/wrong.fault"
call
check 'a statement, answers and a fault that differ, status' 1 $?
check 'a statement, answers and a fault that differ' 'one: one.statement differs
  line 2
  stored: ROWS 2 0
  given:  ROWS 1 0
two: two.answers.csv differs
  line 3
  stored: 3,two
  given:  (the file ends)
wrong: wrong.fault differs
  line 1
  stored: xetra-day: orders: line 3: BadField
  given:  xetra-day: orders: line 2: BadField
3 cases, 3 differ' "$(cat "$room/out")"
store_all

mv -- "$data/one.statement" "$data/one.fault"
printf 'record\n2,two' >"$data/two.answers.csv"
call one two
check 'another kind of result, and another end of a line' 'one: it gives no file one.fault
one: it gives a file that is not stored, one.statement
  given:  DAY of one
two: two.answers.csv differs
  they differ in how the last line ends
2 cases, 2 differ' "$(cat "$room/out")"

call --update one
check 'update, status' 0 $?
check 'update, what it stores' "$(cat "$gives/one.statement")" "$(cat "$data/one.statement")"
[ -e "$data/one.fault" ]
check 'update, what it removes' 1 $?
check 'update, what it lists' 'one
two
wrong' "$(cat "$copy/crates/xetra_cases/args")"
check 'update, what the program must print' 'one as stored
two as stored
wrong as stored
3 cases, 0 differ' "$(cat "$copy/crates/xetra_cases/stdout")"
store_all
touch "$data/two.depth.csv"
call two
check 'levels that differ' 'two: two.depth.csv differs
  line 1
  stored: (the file ends)
  given:  two
1 cases, 1 differ' "$(cat "$room/out")"
echo stored >"$data/two.trades.csv"
call --update two
check 'update, trades and levels' 'trades of two
two' "$(cat "$data/two.trades.csv" "$data/two.depth.csv")"
rm -- "$data/two.trades.csv" "$data/two.depth.csv" "$data/two.statement"
call --list
check 'list, without what gives nothing' 'one
wrong' "$(cat "$copy/crates/xetra_cases/args")"
store_all

echo header >"$data/two.in.csv"
rm -- "$data/two.answers.csv"
touch "$data/two.orders.2.csv"
call --update two
check 'update, a carry file and two order files' 'header
two.orders.csv
two.orders.2.csv' "$(cat "$data/two.out.csv")"
rm -- "$data/two.orders.2.csv"
call --update two
check 'update, a carry file' 'header
two.orders.csv' "$(cat "$data/two.out.csv")"
check 'update, a day with a carry file is listed' 'one
two
wrong' "$(cat "$copy/crates/xetra_cases/args")"
call two
check 'a carry file as stored, status' 0 $?
echo more >>"$data/two.out.csv"
call two
check 'a carry file that differs' 'two: two.out.csv differs
  line 3
  stored: more
  given:  (the file ends)
1 cases, 1 differ' "$(cat "$room/out")"
rm -- "$data/two.in.csv" "$data/two.out.csv"
store_all

for words in 'three' '--all' '--update' '--update three' '--list one' 'One'; do
    # Each word is an argument.
    # shellcheck disable=SC2086
    call $words
    check "mistaken words: $words" 2 $?
done
touch "$room/killed"
call one
check 'a program that is killed, status' 3 $?
check 'a program that is killed, why' 'cases: one: the program ended with status 137: gone' "$(cat "$room/err")"
rm -- "$room/killed"
touch "$room/unbuilt"
call
check 'no program, status' 3 $?
check 'what it leaves' '' "$(ls "$room/rooms")"
exit "$failed"
