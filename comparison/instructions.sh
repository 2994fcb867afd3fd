#!/usr/bin/env bash
# Counts the instructions of one operation for every row of `bench`, in Markdown: what the larger of two numbers of operations takes more
# than the smaller, divided by the operations between them. The counts are the same in every run, give or take a few instructions.
#
#     instructions.sh [ROW...]      all rows, or those named
set -euo pipefail
cd "$(dirname "$0")"
cargo build --release --quiet --bin bench
bench=target/release/bench
# Valgrind counts a string instruction once for each byte, so that the C library is told to copy and clear by vectors instead.
export GLIBC_TUNABLES=glibc.cpu.x86_rep_movsb_threshold=1073741824:glibc.cpu.x86_rep_stosb_threshold=1073741824

# The instructions that one row by one contestant takes.
count() {
    valgrind --tool=callgrind --callgrind-out-file=/dev/null "$bench" --only "$1" "$2" "$3" 2>&1 >/dev/null |
        sed -n 's/.*Collected : *//p'
}

# The instructions of one operation.
each() {
    local few more
    few=$(count "$1" "$2" "$3")
    more=$(count "$1" "$2" "$4")
    echo $(((more - few) / ($4 - $3)))
}

is_wanted() {
    local name=$1 other
    shift
    [ $# = 0 ] && return
    for other; do
        [ "$name" = "$other" ] && return
    done
    return 1
}

ratio() {
    awk -v a="$1" -v b="$2" -v places="$3" 'BEGIN { printf "%.*f", places, a / b }'
}

table=
echo "Instructions for one operation ($(valgrind --version))."
while IFS=$'\t' read -r title row few many meaning; do
    is_wanted "$row" "$@" || continue
    if [ "$title" != "$table" ]; then
        table=$title
        printf '\n### %s\n\n' "$title"
        line='---:|---:|'
        case $title in
        *alls) fourth=untested more=' untested | proved / untested |' ;;
        Windows) fourth=afresh more=' afresh | afresh / proved |' ;;
        *) fourth='' more='' line='' ;;
        esac
        echo "| Row | Meaning | proved | plain | fast | proved / plain | proved / fast |$more"
        echo "|---|---|---:|---:|---:|---:|---:|$line"
    fi
    proved=$(each "$row" proved "$few" "$many")
    plain=$(each "$row" plain "$few" "$many")
    fast=$(each "$row" fast "$few" "$many")
    last=''
    case $fourth in
    untested)
        untested=$(each "$row" untested "$few" "$many")
        last=" $untested | $(ratio "$proved" "$untested" 2) |"
        ;;
    afresh)
        afresh=$(each "$row" afresh "$few" "$many")
        last=" $afresh | $(ratio "$afresh" "$proved" 2) |"
        ;;
    esac
    echo "| $row | $meaning | $proved | $plain | $fast | $(ratio "$proved" "$plain" 3) | $(ratio "$proved" "$fast" 2) |$last"
done < <("$bench" --rows)
