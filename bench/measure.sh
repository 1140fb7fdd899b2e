# What the scripts here share. They source it behind tools/x86/common.sh.

# earlier SCRIPT WHAT FOLDER FILE: the path of the library or program of an earlier version that the script compares with, where the
# caller, in FOLDER, has named one.
earlier() {
    [ -n "$4" ] || return 0
    [[ $4 == /* ]] || set -- "$1" "$2" "$3" "$3/$4"
    [ -f "$4" ] || refuse "$1" "there is no $2 $4"
    echo "$4"
}

# make_scripts LINES: two scripts from a fixed seed. $work/mode-0 has so many random lines, and all its cards are of mode 0. $work/mode-1
# is the same on cards of mode 1, with a GET RESPONSE behind each command that has data, as far as a script may go.
make_scripts() {
    python3 tests/model/generate.py 1 "$1" | LC_ALL=C sed -E 's/^(ISSUE(\t[^\t]*){6})\t[0-9]+((\t[^\t]*){2})$/\1\t0\3/' >"$work/mode-0"
    x86 crates/script/out/script <"$work/mode-0" >"$work/answers"
    python3 bench/fetching.py "$work/mode-0" "$work/answers" >"$work/mode-1"
}

# What runs a program where a script cannot call `x86`.
runner=()
[ "$(uname -m)" = x86_64 ] || runner=(tools/x86/run)

# build_beside PROGRAM...: has each be built over the library, and as PROGRAM-beside over plain C.
build_beside() {
    local program
    for program; do
        build_program "$program" -O2 "${to_count[@]}"
        (library=$plain_card && build_program "$program-beside" -O2 "${to_count[@]}")
    done
}

# by_turns TURNS SCRIPT PROGRAM [-- SCRIPT PROGRAM]...: seconds of processor time of each, a line for each, as bench/turns.py says.
by_turns() {
    python3 bench/turns.py "$@"
}

# per_second COUNT SECONDS
per_second() {
    awk -v count="$1" -v seconds="$2" 'BEGIN { printf "%d\n", count / seconds }'
}

# row NAME SCRIPT COMMAND...: how many of the script's lines the command does in a second of processor time, best of three.
row() {
    local name=$1
    shift
    printf '%10d lines a second  %s\n' "$(per_second "$(wc -l <"$1")" "$(by_turns 3 "$@")")" "$name"
}

# seconds_of_programs SCRIPT: those of the script program and of the one in plain C, ten turns each. They have to print the same.
seconds_of_programs() {
    cmp <(x86 crates/script/out/script <"$1") <(x86 "$built/plain_script" <"$1") >&2 || return
    by_turns 10 "$1" "${runner[@]}" crates/script/out/script -- "$1" "${runner[@]}" "$built/plain_script" | paste -s -d ' '
}

# rate PROGRAM SCRIPT ROUNDS: the calls that it makes, and how many a second of processor time in the fastest round.
rate() {
    x86 "$built/$1" "$3" <"$2" | awk '{ print $1, $3 }'
}

# rates SCRIPT PROGRAM OTHER: those of two, the best of five turns of five rounds each.
rates() {
    local turn ours=0 theirs=0
    for _ in {1..5}; do
        read -r _ turn < <(rate "$2" "$1" 5)
        ((turn <= ours)) || ours=$turn
        read -r _ turn < <(rate "$3" "$1" 5)
        ((turn <= theirs)) || theirs=$turn
    done
    echo "$ours $theirs"
}

# instructions SCRIPT PER FLAG... -- COMMAND...: those of a run on the script, by callgrind with these flags, parted by PER.
instructions() {
    local script=$1 per=$2 flags=()
    shift 2
    while [ "$1" != -- ]; do
        flags+=("$1")
        shift
    done
    shift
    valgrind -q --tool=callgrind --callgrind-out-file="$work/counts" "${flags[@]}" "$@" <"$script" >"$work/out"
    awk -v per="$per" '/^totals:/ { printf "%d\n", $2 / per }' "$work/counts"
}

# instructions_of_call SCRIPT PROGRAM [FUNCTION]: those of a call of the script that a build of bench/calls.c makes; or of these only
# those in that function and in what it calls.
instructions_of_call() {
    local calls count within=(limpet_{issue,command,reset})
    [ $# = 2 ] || within=("$3")
    read -r calls _ < <(rate "$2" "$1" 1)
    count=$(instructions "$1" "$calls" "${within[@]/#/--toggle-collect=}" -- "$built/$2" 1)
    if ((count == 0)); then
        echo "callgrind saw no call of ${within[*]} in $2" >&2
        return 1
    fi
    echo "$count"
}

# instructions_of_line SCRIPT PROGRAM: those of a line of the script.
instructions_of_line() {
    instructions "$1" "$(wc -l <"$1")" -- "$2"
}

# times NOW BEFORE: how many times as much.
times() {
    awk -v now="$1" -v before="$2" 'BEGIN { printf "%.2f", (before > 0 ? now / before : 0) }'
}

# change NOW BEFORE: in percent.
change() {
    awk -v now="$1" -v before="$2" 'BEGIN { printf "%+.1f %%", (before > 0 ? 100 * now / before - 100 : 0) }'
}

# find_table_version: has `table_version` name libcipher.a as it was with the substitution table, where somebody has put it there. It stood in
# crates/cipher/src/table.rt, in the Rattle of an earlier kit, and today's proves and builds none of that.
find_table_version() {
    table_version=target/table-version/libcipher.a
    if [ ! -e $table_version ]; then
        table_version=
        echo "left out, since an earlier kit alone builds it (bench/measure.sh): the version with the substitution table"
    fi
}
