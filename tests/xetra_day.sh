#!/bin/sh
# The script xetra-day, over a small copy of the checkout, with a stand-in for rt that makes a small program at once, and a small
# program in dist/. Prints each case that fails, and ends with status 1 where one does.
set -u

here=$(CDPATH='' cd -P -- "$(dirname -- "$0")/.." && pwd -P)
room=$(mktemp -d)
trap 'end_waiting; rm -rf -- "$room"' EXIT
trap 'exit 1' HUP INT TERM
chmod 755 "$room"
copy=$room/copy
failed=0

# Whether a stand-in that waits is there.
is_waiting() {
    [ -s "$room/waiting" ] && kill -0 "$(cat "$room/waiting")" 2>/dev/null
}

end_waiting() {
    is_waiting && kill "$(cat "$room/waiting")"
    rm -f -- "$room/waiting"
}

# Compares what a case gave with what is wanted of it.
check() {
    [ "$3" = "$2" ] && return
    printf 'xetra-day, %s: wanted\n%s\nand got\n%s\n' "$1" "$2" "$3"
    failed=1
}

has_line() {
    grep -q -e "$2" -- "$1" && echo yes || echo no
}

fresh_copy() {
    rm -rf -- "$copy"
    mkdir -p "$copy/dev" "$copy/crates/xm_program/src" "$copy/crates/xm_program/specs" "$copy/crates/xetra_day/src" \
        "$copy/crates/xm_tests/src"
    cp -- "$here/xetra-day" "$copy"
    printf '# layers\nxm_program: clap\nxetra_day: xm_program\nxm_tests tests_may=Wait: xm_program\n' >"$copy/crates.txt"
    cp -- "$here/dev/sources.sh" "$copy/dev"
    echo '// a test' >"$copy/crates/xm_tests/src/lib.rt"
    cp -- "$here/crates/xm_program/src/command_lines.rt" "$copy/crates/xm_program/src"
    cp -- "$here/crates/xetra_day/src/main.rt" "$copy/crates/xetra_day/src"
    : >"$room/builds"
}

# Gives the copy a program in dist/ that is of its sources.
give_dist() {
    mkdir -p "$copy/dist"
    cp -- "$room/given" "$copy/dist/xetra-day"
    (
        root=$copy
        . "$copy/dev/sources.sh"
        printf 'sources %s\nkit stand-in\nprogram %s\n' "$(digest_of_sources)" "$(sha256_of "$copy/dist/xetra-day")"
    ) >"$copy/dist/BUILT"
}

count_builds() {
    grep -c . "$room/builds"
}

# How many files were digested since the last time that this was asked.
count_digests() {
    grep -c . "$room/digests"
    : >"$room/digests"
}

# What the stand-in does: build, fail, or wait.
stand_in() {
    echo "$1" >"$room/mode"
}

mkdir "$room/bin" "$room/tools" "$room/elsewhere"
cat >"$room/bin/rt" <<END
#!/bin/sh
[ "\$1" = version ] && echo stand-in && exit
echo "\$*" >>"$room/builds"
echo 'rt: chose --jobs 4 for xm_ticks' >&2
case \$(cat "$room/mode") in
    fail) echo 'xm_ticks is not proved' && exit 1 ;;
    wait) echo \$\$ >"$room/waiting" && exec sleep 600 ;;
esac
mkdir -p out && cp "$room/program" out/xetra_day
END
version=$(sed -n 's/^const VERSION: &str = "\(.*\)";$/xetra-day \1/p' "$here/crates/xm_program/src/command_lines.rt")
cat >"$room/program" <<END
#!/bin/sh
case \$1 in
    run) cat -- "\$2" "\$3" ;;
    end) exit "\$2" ;;
    who) echo built ;;
    --version) echo '$version' ;;
esac
END
sed 's/built/given/' "$room/program" >"$room/given"
cat >"$room/bin/sha256sum" <<END
#!/bin/sh
printf '%s\n' "\$@" >>"$room/digests"
exec $(command -v sha256sum) "\$@"
END
chmod +x "$room/bin/rt" "$room/bin/sha256sum" "$room/program" "$room/given"
for tool in sh awk cat cmp cp cut date dirname find grep mkdir mkfifo mv readlink rm sed sha256sum sort tr wc xargs; do
    ln -s "$(command -v "$tool")" "$room/tools"
done
echo segment >"$room/elsewhere/segment.toml"
echo orders >"$room/elsewhere/orders.csv"
PATH=$room/bin:$PATH
cd -- "$room/elsewhere" || exit 1

# Calls the script; what it prints is in out and err.
call() {
    "$copy/xetra-day" "$@" >"$room/out" 2>"$room/err"
}

parts_left() {
    find "$copy/out" -name '*.part*' 2>/dev/null
}

fresh_copy
stand_in build
for words in --help -h help 'run --help' 'help run' 'carry a b -h'; do
    # Each word is an argument.
    # shellcheck disable=SC2086
    call $words
    check "help before the first build, status of $words" 0 $?
done
check 'help before the first build, builds' '' "$(cat "$room/builds")"
check 'the version before the first build' "$version" "$("$copy/xetra-day" --version)"
check 'help before the first build, commands' \
    "$(sed -n 's/^ *\.subcommand(\(.*\)_command(alloc)?)?;*$/\1/p' "$here/crates/xm_program/src/command_lines.rt")" \
    "$(sed -n 's/^\(Usage:\)* *xetra-day \([a-z]*\) .*/\2/p' "$room/out" | uniq)"
../copy/xetra-day run segment.toml orders.csv >"$room/out" 2>"$room/err"
check 'a first call from another folder, status' 0 $?
check 'a first call from another folder, on relative paths' 'segment
orders' "$(cat "$room/out")"
check 'a first call, how it is built' 'run -- --help' "$(cat "$room/builds")"
check 'a first call tells how far it is' yes "$(has_line "$room/err" 'proving xm_ticks, crate 1 of at most 2$')"
check 'a first call, parts that it leaves' '' "$(parts_left)"
call run segment.toml orders.csv
check 'a second call, builds' 1 "$(count_builds)"
check 'a second call, what it says' '' "$(cat "$room/err")"
for status in 0 1 2 3; do
    call end "$status"
    check "a program that ends with $status" "$status" $?
done
ln -s ../copy/xetra-day "$room/elsewhere/link"
check 'a call through a link' 'segment
orders' "$(./link run segment.toml orders.csv 2>&1)"
check 'a call without rt of a program that is built' 'segment
orders' "$(PATH=$room/tools "$copy/xetra-day" run segment.toml orders.csv 2>&1)"
check 'calls of what is built, builds' 1 "$(count_builds)"
echo '// edited' >>"$copy/crates/xetra_day/src/main.rt"
call run segment.toml orders.csv
check 'a call after an edit, builds' 2 "$(count_builds)"
echo '// edited' >>"$copy/crates/xm_tests/src/lib.rt"
call run segment.toml orders.csv
check 'a call after an edit of tests, builds' 2 "$(count_builds)"
call --build
check 'a build that is asked for, status' 0 $?
check 'a build that is asked for, builds' 3 "$(count_builds)"
check 'the path of what was built' "$copy/out/xetra-day" "$("$copy/xetra-day" --path)"
call --build run
check 'a build with another word, status' 2 $?

fresh_copy
stand_in build
give_dist
PATH=$room/tools "$copy/xetra-day" who >"$room/out" 2>"$room/err"
check 'a program in dist/, status' 0 $?
check 'a program in dist/, which' given "$(cat "$room/out")"
check 'a program in dist/, what it says' '' "$(cat "$room/err")"
check 'a program in dist/, its path' "$copy/dist/xetra-day" "$("$copy/xetra-day" --path)"
call end 1
check 'a program in dist/ that ends with 1' 1 $?
check 'a program in dist/, builds' 0 "$(count_builds)"
# What was touched in the last two seconds is looked at again.
find "$copy" -exec touch -d '-1 hour' -- {} +
sleep 3
call who
: >"$room/digests"
call who
check 'a call where nothing was touched, digests' 0 "$(count_digests)"
echo '// edited' >>"$copy/crates/xm_tests/src/lib.rt"
call who
check 'a call after an edit of tests, digests' 0 "$(count_digests)"
touch "$copy/crates/xetra_day/src/main.rt"
call who
check 'a call after a touch, digests' no "$([ "$(count_digests)" -eq 0 ] && echo yes || echo no)"
check 'a call after a touch, which' given "$(cat "$room/out")"
sleep 3
call who
# Each leaves other sources, in a way that is seen.
for change in 'mkdir crates/xetra_day/specs' 'mv crates/xetra_day/src/main.rt crates/xetra_day/src/other.rt' 'touch -d 2030-01-01 out/xetra-day.seen'; do
    (cd "$copy" && $change && echo '// other' >>crates/xm_program/src/command_lines.rt)
    PATH=$room/tools "$copy/xetra-day" who >"$room/out" 2>"$room/err"
    check "$change, status" 3 $?
    check "$change, why" yes "$(has_line "$room/err" 'not of these sources')"
    sed -i '$d' "$copy/crates/xm_program/src/command_lines.rt"
    (cd "$copy" && rmdir crates/xetra_day/specs; mv crates/xetra_day/src/other.rt crates/xetra_day/src/main.rt) 2>/dev/null
done
call who
check 'the same sources again' given "$(cat "$room/out")"
call --build
check 'a build beside dist/, builds' 1 "$(count_builds)"
call who
check 'a build beside dist/, which' built "$(cat "$room/out")"

# Each makes dist/ one that isn't run, for this reason: it is told, and the program built; or what is wanted is told, where rt is.
for reason in 'not of these sources' damaged "doesn't run here"; do
    fresh_copy
    stand_in build
    give_dist
    case $reason in
        not*) echo '// edited' >>"$copy/crates/xetra_day/src/main.rt" ;;
        damaged) echo >>"$copy/dist/xetra-day" ;;
        *)
            sed -i 's/--version/--nothing/' "$room/given"
            give_dist
            ;;
    esac
    PATH=$room/tools "$copy/xetra-day" who >"$room/out" 2>"$room/err"
    check "dist/ is $reason, and no rt, status" 3 $?
    check "dist/ is $reason, and no rt, why" yes "$(has_line "$room/err" "the program in dist/ .*$reason")"
    check "dist/ is $reason, and no rt, what is wanted" yes "$(has_line "$room/err" "there is no command 'rt' on the path")"
    call who
    check "dist/ is $reason, which" built "$(cat "$room/out")"
    check "dist/ is $reason, why" yes "$(has_line "$room/err" "the program in dist/ .*$reason")"
    call who
    check "dist/ is $reason, a second call, what it says" '' "$(cat "$room/err")"
    check "dist/ is $reason, builds" 1 "$(count_builds)"
done

fresh_copy
stand_in fail
call run segment.toml orders.csv
check 'a failed build, status' 3 $?
check 'a failed build, what it prints' '' "$(cat "$room/out")"
log=$copy/out/xetra-day.failed.log
check 'a failed build says where its log is' yes "$(has_line "$room/err" "the end of $log says why")"
check 'a failed build, its log' yes "$(has_line "$log" 'xm_ticks is not proved' 2>&1)"
check 'a failed build, parts that it leaves' '' "$(parts_left)"
stand_in build
call run segment.toml orders.csv
check 'a build after a failed one, status' 0 $?
check 'a build after a failed one, the log of that' no "$([ -e "$log" ] && echo yes || echo no)"

# What a shell runs in the background ignores an interrupt, and whatever the shell's caller ignores.
for signal in HUP INT TERM; do
    fresh_copy
    stand_in wait
    env --default-signal="$signal" "$copy/xetra-day" run segment.toml orders.csv >"$room/out" 2>"$room/err" &
    called=$!
    until [ -s "$room/waiting" ]; do sleep 0.1; done
    kill -s "$signal" "$called"
    tries=0
    while is_waiting && [ "$tries" -lt 50 ]; do
        sleep 0.1
        tries=$((tries + 1))
    done
    check "a build that $signal ends, whether its rt still runs" no "$(is_waiting && echo yes || echo no)"
    end_waiting
    wait "$called" 2>/dev/null
    check "a build that $signal ends, by which signal" "$signal" "$(kill -l $?)"
    check "a build that $signal ends, what it leaves" '' "$(find "$copy/out" ! -name '*.seen' \( -type f -o -type p \))"
done

fresh_copy
stand_in build
for wanted in sha256sum xargs; do
    mv "$room/tools/$wanted" "$room/$wanted.away"
    PATH=$room/tools "$copy/xetra-day" run segment.toml orders.csv >"$room/out" 2>"$room/err"
    check "no $wanted, status" 3 $?
    check "no $wanted, what it says" yes "$(has_line "$room/err" "the sources can't be digested")"
    mv "$room/$wanted.away" "$room/tools/$wanted"
done
PATH=$room/tools "$copy/xetra-day" run segment.toml orders.csv >"$room/out" 2>"$room/err"
check 'no rt, status' 3 $?
check 'no rt, what it says' yes "$(has_line "$room/err" "there is no command 'rt' on the path")"

# Root may write anywhere, so another user calls there.
as_another='setpriv --reuid=65534 --regid=65534 --clear-groups'
chmod -R a-w "$copy"
if [ "$(id -u)" -ne 0 ]; then
    as_another=
elif ! $as_another true 2>/dev/null; then
    echo 'xetra-day: a checkout that cannot be written was not tried: setpriv failed, and root can write anywhere'
    as_another=none
fi
if [ "$as_another" != none ]; then
    $as_another "$copy/xetra-day" run segment.toml orders.csv >"$room/out" 2>"$room/err"
    check 'a checkout that cannot be written, status' 3 $?
    check 'a checkout that cannot be written, what it says' yes "$(has_line "$room/err" "$copy can't be written")"
fi
chmod -R u+w "$copy"
exit "$failed"
