# What the first line of results says of the machine and of what was built for it, for bench/run and bench/columns/run, which
# source this.

# The processor that this runs on: maker, family and model.
processor_here() {
    awk -F ': *' '
        /^vendor_id/ { maker = tolower($2); sub(/^(genuine|authentic)/, "", maker) }
        /^cpu family/ { family = $2 }
        /^model[\t ]*:/ { print maker "-" family "-" $2; exit }
    ' /proc/cpuinfo
}

# What built the archive: the compiler that the archive names, or the Rattle kit with its clang.
builder_of() {
    local comment clang
    comment=$(readelf -p .comment "$1" 2>/dev/null | sed -n 's/^ *\[ *[0-9a-f]*\] *//p' | sort -u) || comment=
    case $comment in
    *rattle* | '')
        command -v rt >/dev/null || return
        clang=$(dirname "$(dirname "$(readlink -f "$(command -v rt)")")")/toolchain/bin/clang
        rt version | tr -d '\n'
        [ ! -x "$clang" ] || "$clang" --version | sed -n '1s/.*\(clang version [0-9.]*\).*/, \1/p'
        ;;
    *) echo "$comment" ;;
    esac
}

# The first line of the results of an archive: the processor, what the first argument says of what was timed, what built the
# archive, and when it was timed.
head_line() {
    local processor
    processor=$(sed -n '/^model name/{s/^[^:]*: //p;q}' /proc/cpuinfo)
    echo "# ${processor:-unknown processor}; $1; ours: $(builder_of "$2" || echo unknown); $(date -u '+%Y-%m-%d %H:%M')"
}
