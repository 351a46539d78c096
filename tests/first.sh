#!/usr/bin/env bash
# Runs ./flblock in a copy of the tree, over a stand-in for the proved build, where that is current and where it is not, and
# prints a line for each thing that is as it should be: 'ok NAME'. Any other line tells what is not.
set -u
cd "$(dirname "$0")/.." || exit 1
work=$(mktemp -d)
trap 'rm -rf "$work"' EXIT
mkdir -p "$work/tree" "$work/no_rt"
tar -c --exclude=out flblock start crates.txt HANDLES crates | tar -x -C "$work/tree"
cd "$work/tree" || exit 1

proved=crates/flblock_main/out/flblock_main
mkdir crates/flblock_main/out
printf '#!/bin/sh\necho "proved: $*"\ncat\nexit 5\n' >$proved
printf '#!/bin/sh\necho "rt is asked: $*" >&2\nexit 1\n' >"$work/no_rt/rt"
chmod +x $proved "$work/no_rt/rt"

# The name of a check, and then the command that it is; what the program wrote last is shown where it fails.
check() {
    local name=$1
    shift
    if "$@"; then
        echo "ok $name"
    else
        echo "$name: not so"
        cat "$work/out" "$work/err"
    fi
}

# Runs the program with these words and an rt that does nothing, and ends with the program's status.
without_rt() { PATH=$work/no_rt:$PATH ./flblock "$@" >"$work/out" 2>"$work/err"; }
runs_proved() {
    without_rt pack u16 3 <<<'given'
    [ $? = 5 ] && [ "$(cat "$work/out")" = $'proved: pack u16 3\ngiven' ] && [ ! -s "$work/err" ]
}
asks_rt() {
    without_rt </dev/null
    [ $? = 70 ] && grep -q '^rt is asked: try ' "$work/err" && [ ! -s "$work/out" ]
}

# Makes these files newer than all that were made so before: the times lie in the past, and no test waits for the clock.
now=1000000000
newer() { touch -d "@$((now += 1))" "$@"; }
find . -exec touch -d "@$now" {} +
newer $proved
check './flblock runs the proved build, and says nothing' runs_proved
made_from=(flblock_main)
for ((at = 0; at < ${#made_from[@]}; at++)); do
    for name in $(sed -n -E "s/^${made_from[at]}( [^:]*)?://p" crates.txt); do
        [[ " ${made_from[*]} " == *" $name "* ]] || made_from+=("$name")
    done
done
for folder in crates/*; do
    name=${folder#crates/}
    newer "$(find "$folder/src" -name '*.rt' -print -quit)"
    case " ${made_from[*]} " in
    *" $name "*) check "./flblock builds anew for a newer source of $name" asks_rt ;;
    *) check "./flblock is not made from $name" runs_proved ;;
    esac
    newer $proved
done
echo >crates/flblock/src/unread.rt
newer crates/flblock/src/unread.rt crates/flblock/src
newer $proved
check './flblock reads the sources that are there' runs_proved
rm crates/flblock/src/unread.rt
check './flblock builds anew where a source is gone' asks_rt

# The build without proofs, by an rt that does nothing until the lines are there. The block of the ramp is that of the file stdout.
rt=$(command -v rt)
mkdir "$work/held_rt"
mkfifo "$work/go_on"
printf '#!/bin/sh\nread -r line <"%s"\nexec "%s" "$@"\n' "$work/go_on" "$rt" >"$work/held_rt/rt"
chmod +x "$work/held_rt/rt"
exec 3<>"$work/go_on"
PATH=$work/held_rt:$PATH ./flblock ramp u16 4 >"$work/out" 2>"$work/err" 3>&- &
program=$!
# It says a line at once and one every five seconds, later where the machine is slow: ten minutes are more than any needs.
for _ in {1..6000}; do
    [ "$(wc -l <"$work/err")" -lt 2 ] && kill -0 $program || break
    sleep 0.1
done
tells_early() { [ "$(wc -l <"$work/err")" -ge 2 ] && kill -0 $program; }
check './flblock tells early what it does' tells_early
echo >&3
wait $program
check './flblock ends well without proofs' [ $? = 0 ]
check './flblock writes the ramp without proofs' cmp -s "$work/out" crates/flblock_main/stdout
check './flblock says that nothing is proved' grep -q 'not yet proved.* rt run' <(tail -n 1 "$work/err")
check './flblock leaves the proved build as it is' grep -q '^echo "proved' $proved

# Used again, it needs no rt, and says one line.
for _ in {0..127}; do printf '\0\0\1\0\2\0\3\0\4\0\5\0\6\0\7\0'; done >"$work/block"
once() { [ "$(grep -c 'not yet proved' "$work/err")" = 1 ] && [ "$(wc -l <"$work/err")" = "$1" ]; }
packs() { without_rt pack u16 3 <"$work/block" && [ "$(wc -c <"$work/out")" = 384 ] && once 1; }
check './flblock keeps the build without proofs' packs
cp "$work/out" "$work/packed"
unpacks() { without_rt unpack u16 3 <"$work/packed" && cmp -s "$work/out" "$work/block" && once 1; }
check './flblock passes bytes in and out without proofs' unpacks
refuses() {
    without_rt ramp u24 3
    [ $? = 1 ] && [ ! -s "$work/out" ] && once 2 && tail -n 1 "$work/err" | grep -q '^usage: '
}
check './flblock passes the status on without proofs' refuses
touch $proved
check './flblock takes the proved build once that is newer' runs_proved
