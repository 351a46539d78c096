#!/usr/bin/env bash
# Runs flcolumn where memory is refused, where reads and writes fail, and where they move little at a time, and prints a line for
# each thing that is as it should be: 'ok NAME'. Any other line tells what is not. The program is that which rt ci has left; FLCOLUMN
# may name another. To a build without proofs no memory can be refused, since it brings its own way to it.
set -u
cd "$(dirname "$0")/.." || exit 1
command -v cc >/dev/null || {
    echo "skipped: the tests of flcolumn where calls fail (no cc)"
    exit 0
}
# shellcheck source=tests/check
. tests/check
# shellcheck source=tests/in_turn
. tests/in_turn
program=${FLCOLUMN:-crates/flcolumn_main/out/flcolumn_main}

for it in memory streams; do
    check "tests/$it/refuse.c compiles" cc -O1 -Wall -Wextra -Werror -shared -fPIC -o "$work/$it.so" tests/$it/refuse.c
done

# The first files that a program opens have the numbers 3 and 4, where it is given no others.
exec 3>&- 4>&-

# Two pages: their values as bytes, the column, what is in it, and some values as lines. tests/column_program.sh holds this column
# against that of a second writer; here the values have to come back.
python3 - "$work" <<'PYTHON'
import pathlib
import sys

work = pathlib.Path(sys.argv[1])
values = [3 * i % 2**16 for i in range(66000)]
(work / "values").write_bytes(b"".join(value.to_bytes(2, "little") for value in values))
(work / "lines").write_text("".join(f"{values[i]}\n" for i in (0, 65999, 65535, 65536, 65536)))
PYTHON
"$program" encode u16 <"$work/values" >"$work/column"
"$program" info <"$work/column" >"$work/text"
check 'flcolumn info tells of two pages' grep -x 'pages: 2' "$work/text"
first=$((8 + 16 + $(od -An -tu4 -j16 -N4 "$work/column")))
check 'the first page of the column has another behind it' test $first -lt "$(($(wc -c <"$work/column") - 24))"

# The commands: what each reads and writes as a whole, how many bytes it may have written where a read failed, and how few bytes a
# write takes so that it needs some.
encode() { words=(encode u16) input=$work/values whole=$work/column written="8 $first" few=4099; }
decode() { words=(decode) input=$work/column whole=$work/values written='0 131072 132000' few=4099; }
info() { words=(info) input=$work/column whole=$work/text written=0 few=50; }
get() { words=(get 0 65999 65535 65536 65536) input=$work/column whole=$work/lines written=0 few=3; }

# A run of which a call was refused ends with this status and text, after a beginning of the output, with no call after that.
ends_refused() {
    local err
    err=$(cat "$work/err")
    wc -c <"$work/out" >>"$work/lengths"
    [ "$(cat "$work/status")" = "$status" ] && [ ! -s "$work/refused" ] &&
        [ "$err" = "flcolumn: $text" ] &&
        cmp "$work/out" <(head -c "$(wc -c <"$work/out")" "$whole")
}
# Without some memory that is asked for, a run ends as ever.
ends_without_memory() { ends_as_without >/dev/null || ends_refused; }
ends_whole() { [ "$(cat "$work/status")" = 0 ] && [ ! -s "$work/err" ] && cmp "$work/out" "$whole"; }

# How many calls it takes to move the bytes of a file, at most so many by each.
calls() { echo $((($(wc -c <"$1") + $2 - 1) / $2)); }

# How a run ends of which a call was refused, by this library and this variable, and with which status and text; how many such calls
# there are at least; which lengths the outputs of such runs have, or 'any'; and the program.
bears() {
    local holds=$1 least=$6 lengths=$7 found
    preload=$work/$2.so refused=$3 status=$4 text=$5
    shift 7
    : >"$work/lengths"
    in_turn "$holds" "$@" && ends_whole || return 1
    found=$(sort -nu "$work/lengths" | xargs)
    echo "$(wc -l <"$work/lengths") calls, and of the outputs the lengths are: $found"
    [ "$(wc -l <"$work/lengths")" -ge "$least" ] && { [ "$lengths" = any ] || [ "$lengths" = "$found" ]; }
}
bears_memory() { bears ends_without_memory memory REFUSED_REQUEST 6 'out of memory' 1 "$@"; }
# What the system says of a call that is refused so.
why() {
    case ${REFUSED_AS-} in
        nothing) ;;
        interrupted) echo ': Interrupted system call (os error 4)' ;;
        *) echo ': Input/output error (os error 5)' ;;
    esac
}
bears_reads() {
    local text="cannot read standard input$(why)"
    [ -z "${READ_FROM-}" ] || text="cannot read \"$input\"$(why)"
    bears ends_refused streams REFUSED_READ 4 "$text" "$(calls "$input" "${READ_MOST:-1000000}")" "$@"
}
bears_writes() {
    local text="cannot write standard output$(why)"
    [ -z "${WRITE_TO-}" ] || text="cannot write \"$work/out\"$(why)"
    bears ends_refused streams REFUSED_WRITE 5 "$text" "$(calls "$whole" "${WRITE_MOST:-1000000}")" "$@"
}

# Where a read gives and a write takes at most so many bytes, the program writes the same, and makes as many calls as that takes: the
# last of them can be refused.
bears_pieces() (
    export READ_MOST=$1 WRITE_MOST=$2
    shift 2
    preload=$work/streams.so refused=REFUSED_READ
    run 0 "$@"
    ends_whole || return 1
    run "$(calls "$input" "$READ_MOST")" "$@"
    [ -e "$work/refused" ] || { echo 'it makes fewer reads' && return 1; }
    refused=REFUSED_WRITE
    run "$(calls "$whole" "$WRITE_MOST")" "$@"
    [ -e "$work/refused" ] || { echo 'it makes fewer writes' && return 1; }
)

# The status and the text that the command ends with on these streams, and what it has written is a beginning.
ends_on() {
    local status=$1 text=$2
    shift 2
    : >"$work/out"
    rm -f "$work/refused"
    "$@" 2>"$work/err"
    echo $? >"$work/status"
    echo "status $(cat "$work/status"), '$(cat "$work/err")'"
    ends_refused
}
on_a_directory() { "$program" "${words[@]}" <. >"$work/out"; }
on_closed_input() { "$program" "${words[@]}" <&- >"$work/out"; }
to_a_full_device() { "$program" "${words[@]}" <"$input" >/dev/full; }
to_closed_output() { "$program" "${words[@]}" <"$input" >&-; }
to_a_reader_that_left() {
    local ended
    exec 3> >(:)
    wait $!
    "$program" "${words[@]}" <"$input" >&3
    ended=$?
    exec 3>&-
    return $ended
}

# The text that a run on such a stream ends with.
declare -A says=(
    [on_a_directory]='cannot read standard input: Is a directory (os error 21)'
    [on_closed_input]='cannot read standard input: Bad file descriptor (os error 9)'
    [to_a_full_device]='cannot write standard output: No space left on device (os error 28)'
    [to_closed_output]='cannot write standard output: Bad file descriptor (os error 9)'
    [to_a_reader_that_left]='cannot write standard output: Broken pipe (os error 32)'
)

for command in encode decode info get; do
    $command
    flcolumn=("$program" "${words[@]}")
    # A line needs memory too.
    [ $command = get ] && lengths=any || lengths=0
    check "flcolumn $command, each request for memory refused" bears_memory "$lengths" "${flcolumn[@]}"
    check "flcolumn $command, each read failing" bears_reads "$written" "${flcolumn[@]}"
    check "flcolumn $command, each write failing" bears_writes any "${flcolumn[@]}"
    READ_MOST=4099 check "flcolumn $command, each read of 4099 bytes failing" bears_reads "$written" "${flcolumn[@]}"
    WRITE_MOST=$few check "flcolumn $command, each write of $few bytes failing" bears_writes any "${flcolumn[@]}"
    REFUSED_AS=interrupted check "flcolumn $command, each read interrupted" bears_reads "$written" "${flcolumn[@]}"
    REFUSED_AS=interrupted check "flcolumn $command, each write interrupted" bears_writes any "${flcolumn[@]}"
    REFUSED_AS=nothing check "flcolumn $command, each write taking nothing" bears_writes any "${flcolumn[@]}"
    check "flcolumn $command, reads and writes of single bytes" bears_pieces 1 1 "${flcolumn[@]}"
    check "flcolumn $command, reads of 7 bytes and writes of 5" bears_pieces 7 5 "${flcolumn[@]}"
    # Files are the first that the program opens.
    between_files=("${flcolumn[@]}" --input "$input" --output "$work/out")
    READ_FROM=3 check "flcolumn $command between files, each read failing" bears_reads "$written" "${between_files[@]}"
    WRITE_TO=4 check "flcolumn $command between files, each write failing" bears_writes any "${between_files[@]}"
    for where in on_a_directory on_closed_input; do
        check "flcolumn $command ${where//_/ }: status 4" ends_on 4 "${says[$where]}" $where
    done
    for where in to_a_full_device to_closed_output to_a_reader_that_left; do
        check "flcolumn $command ${where//_/ }: status 5" ends_on 5 "${says[$where]}" $where
    done
done

# Help is output too.
words=(--help) input=/dev/null whole=$work/help
"$program" --help >"$work/help"
for where in to_a_full_device to_closed_output to_a_reader_that_left; do
    check "flcolumn --help ${where//_/ }: status 5" ends_on 5 "${says[$where]}" $where
done

# The same of a program that copies, where it does that rightly and where it goes wrong.
input=$work/values whole=$work/values
compiles() { cc -O1 -Wall -Wextra -Werror -DWRONG="$1" -o "$work/copy" tests/streams/copy.c; }
bears_all() {
    bears_memory 0 "$1" && bears_reads any "$1" && bears_writes any "$1" && bears_pieces 7 5 "$1"
}
check 'tests/streams/copy.c compiles' compiles 0
check 'a program that copies is taken' bears_all "$work/copy"
is_refused() {
    compiles "$1" || return 1
    shift
    ! "$@" "$work/copy"
}
check 'one that writes before all is read is refused' is_refused 0 bears_reads 0
check 'one that goes on without memory is refused' is_refused 1 bears_memory 0
REFUSED_AS=interrupted check 'one that reads once more where a read was interrupted is refused' is_refused 2 bears_reads any
check 'one that takes a read that failed for the end is refused' is_refused 3 bears_reads any
check 'one that tells a read that failed by another text is refused' is_refused 4 bears_reads any
check 'one that goes on where a write failed is refused' is_refused 5 bears_writes any
check 'one that tells a write that failed by another status is refused' is_refused 6 bears_writes any
check 'one that tells no write that failed is refused' is_refused 7 bears_writes any
REFUSED_AS=nothing check 'one that writes once more where a write took nothing is refused' is_refused 8 bears_writes any
check 'one that calls once more behind a write that failed is refused' is_refused 9 bears_writes any
check 'one that takes a part that was written for all is refused' is_refused 10 bears_pieces 7 5
check 'one that takes a part that was read for all is refused' is_refused 11 bears_pieces 7 5
