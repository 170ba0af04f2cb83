#!/bin/sh
# Runs the built program on every model here and compares what it prints with the file `expected` beside it, on one
# command line for each status that a user can bring about, and on the refused programs and tables that docs/formats.md
# shows. What is expected is computed again, in Python, by `expected.py` beside it; where `truth.py` stands there, it says how far
# that is from the real numbers, and fails where it is further than the model's page says.
# Usage: sh examples/check.sh [PROGRAM]; without one, the program that `rt ci` built. The first that fails ends it.
set -eu
here=$(cd "$(dirname "$0")" && pwd)
program=$(realpath "${1:-$here/../crates/simit/out/simit}")
work=$(mktemp -d)
trap 'rm -rf "$work"' EXIT

# compare NAME STATUS WANTED_STATUS WANTED_OUT WANTED_NOTE: what the last call wrote stands in $work/out and $work/note
compare() {
    if [ "$2" -ne "$3" ]; then
        echo "check.sh: $1 ended with status $2, not $3" >&2
        exit 1
    fi
    if ! cmp -s "$work/out" "$4" || ! cmp -s "$work/note" "$5"; then
        echo "check.sh: $1 wrote something else:" >&2
        diff "$4" "$work/out" >&2 || true
        diff "$5" "$work/note" >&2 || true
        exit 1
    fi
    echo "check.sh: $1 is as expected"
}

# call WORDS..: runs the program, and leaves its status in $status
call() {
    status=0
    "$program" "$@" >"$work/out" 2>"$work/note" || status=$?
}

: >"$work/nothing"
for words in "$here"/*/words; do
    model=$(dirname "$words")
    cd "$model"
    PYTHONPATH=$here python3 expected.py >"$work/out"
    : >"$work/note"
    compare "what is expected of $(basename "$model")" 0 0 expected "$work/nothing"
    [ ! -f truth.py ] || python3 truth.py
    # The words of a command hold no blanks, and begin with `run`.
    # shellcheck disable=SC2046
    call $(cat words)
    compare "the model $(basename "$model")" "$status" 0 expected "$work/nothing"
    # shellcheck disable=SC2046
    call plain $(cut -d ' ' -f 2- words)
    compare "the plain run of $(basename "$model")" "$status" 0 expected "$work/nothing"
done

cd "$here/pull"
# printed TEXT WORDS..: the program prints this line for these words
printed() {
    echo "$1" >"$work/wanted"
    shift
    call "$@"
    compare "$*" "$status" 0 "$work/wanted" "$work/nothing"
}

# noted STATUS NOTE WORDS..: it ends with this status and note line, and puts nothing out
noted() {
    wanted_status=$1
    echo "$2" >"$work/wanted"
    shift 2
    call "$@"
    compare "$*" "$status" "$wanted_status" "$work/nothing" "$work/wanted"
}

usage='usage: simit run|plan|plain PROGRAM SETS.. or simit make SEED N'
noted 2 "$usage" run
noted 2 "$usage" run pull.sim points.csv springs.csv --turns 5 --turns 5
noted 2 "$usage" plain pull.sim points.csv springs.csv --workers 2
noted 2 'refused: not yet' plan pull.sim points.csv springs.csv
noted 2 'refused: no set nodes' run pull.sim points.csv springs.csv --only nodes
noted 2 'refused: 1 files for 2 sets' run pull.sim points.csv
printed 'points 3 springs 6 weighted -98' make 7 3
printed 'points 1 springs 2 weighted 0' make 0 1 --workers=16
noted 7 'limit: dense words over 4194304' make 7 2049
sed -n '/^set springs/,$p' expected >"$work/springs"
call run --only=springs pull.sim points.csv -- springs.csv
compare 'one set of the output alone' "$status" 0 "$work/springs" "$work/nothing"

# A term of 9,000 matrices, each of which adds the second number of a pair to the first.
{
    sed '/^func/,$d' pull.sim
    echo 'func shear(s : Spring, p : (Point*2)) -> (K : matrix[points,points](int(0)))'
    echo '  K(p(0),p(0)) = s.k;  K(p(0),p(1)) = s.k;  K(p(1),p(1)) = s.k;'
    printf 'end\nproc main\n  var K = map shear to springs reduce +;\n  points.f = ix (i0) '
    awk 'BEGIN { for (j = 0; j < 9000; j++) printf "K(i%d,i%d)*", j, j + 1; print "points.x(i9000);" }'
    echo end
} >"$work/deep.sim"
printf 'x,f\n1,0\n1,0\n' >"$work/points.csv"
printf 'p0,p1,k\n0,1,1\n' >"$work/springs.csv"
printf 'set points\nx,f\n1,9001\n1,1\n' >"$work/wanted"
call run --only points "$work/deep.sim" "$work/points.csv" "$work/springs.csv"
compare 'a term of 9000 matrices' "$status" 0 "$work/wanted" "$work/nothing"

echo 'read fault: nosuch.csv' >"$work/wanted"
call run pull.sim points.csv nosuch.csv
compare 'a table that is missing' "$status" 3 "$work/nothing" "$work/wanted"

echo 'write fault' >"$work/wanted"
status=0
"$program" run pull.sim points.csv springs.csv >/dev/full 2>"$work/note" || status=$?
: >"$work/out"
compare 'a full device' "$status" 4 "$work/nothing" "$work/wanted"

head -c 1048577 /dev/zero | tr '\0' '%' >"$work/long.sim"
echo "limit: $work/long.sim is over 1048576 bytes" >"$work/wanted"
call run "$work/long.sim" points.csv springs.csv
compare 'a program that is too long' "$status" 7 "$work/nothing" "$work/wanted"

# refused LINE NOTE: a program with this text in its sixth line is refused before its table, which isn't there
refused() {
    printf 'element P\n  x : int(0);\nend\nextern points : set{P};\nproc main\n  %s\nend\n' "$1" >"$work/wrong.sim"
    echo "refused: $2" >"$work/wanted"
    call run "$work/wrong.sim" nosuch.csv
    compare "a program that is refused: $2" "$status" 2 "$work/nothing" "$work/wanted"
}

# repeated COUNT TEXT
repeated() {
    yes "$2" | head -n "$1"
}

refused 'points.x = points.x / 2;' 'line 6, byte 84: bad byte'
refused "points.x = points.$(repeated 65 y | tr -d '\n');" 'line 6, byte 82: long name'
refused "points.x = 2*$(repeated 65 '(' | tr -d '\n')1$(repeated 65 ')' | tr -d '\n');" 'line 6, byte 141: too deep'
refused "$(repeated 9000 '  points.x = points.x;' | sed '1s/^  //')" 'line 8195, byte 188422: too many tokens'
refused 'points.x = points.x + ;' 'line 6, token 28: syntax'
refused 'points.x = 2*points.x' 'line 7, token 29: syntax'
refused 'points.y = points.x;' 'line 6: unknown name'
refused 'points.x = points.x + 1;' 'line 6: shape'
refused 'points.x = 1.5*points.x;' 'line 6: scale'
refused 'points.x = ix (i) points.x(j);' 'line 6: not a chain'

# stopped STATUS NOTE LINE: a program with this text in its sixth line stops so, and puts nothing out
stopped() {
    printf 'element P\n  x : int(0);\nend\nextern points : set{P};\nproc main\n  %s\nend\n' "$3" >"$work/stops.sim"
    printf 'x\n1\n' >"$work/points.csv"
    echo "$2" >"$work/wanted"
    call run "$work/stops.sim" "$work/points.csv"
    compare "a run that stops: $2" "$status" "$1" "$work/nothing" "$work/wanted"
}

stopped 5 'trap at line 6: assertion failed' 'assert 1 == 2;'
stopped 5 'trap at line 6: division by zero' 'var a = quot(1, 0, 0);'
stopped 5 'trap at line 6: root of a negative number' 'var a = isqrt(-1, 0);'
stopped 6 'spent: 100000 turns' 'while 1 == 1 end'

# mapped STATUS NOTE COUNT K..: a map that divides by the springs' k, over so many points, with springs of these k
mapped() {
    wanted_status=$1
    echo "$2" >"$work/wanted"
    count=$3
    shift 3
    {
        sed '/^func/,$d' pull.sim
        echo 'func ratio(s : Spring, p : (Point*2)) -> (K : matrix[points,points](int(0)))'
        echo '  K(p(0),p(1)) = quot(100, s.k, 0);'
        printf 'end\nproc main\n  var K = map ratio to springs reduce +;\nend\n'
    } >"$work/ratio.sim"
    { echo x,f; repeated "$count" 0,0; } >"$work/points.csv"
    { echo p0,p1,k; for k in "$@"; do echo "0,1,$k"; done; } >"$work/springs.csv"
    call run "$work/ratio.sim" "$work/points.csv" "$work/springs.csv"
    compare "a run that stops: $(cat "$work/wanted")" "$status" "$wanted_status" "$work/nothing" "$work/wanted"
}

mapped 5 'trap at line 14, element 3: division by zero' 3 1 1 1 0 1 1 1 0
mapped 7 'limit: dense words over 4194304' 2049

# refused_table NOTE LINES..: a table of springs with these lines is refused
refused_table() {
    note=$1
    shift
    : >"$work/springs.csv"
    [ $# -eq 0 ] || printf '%s\n' "$@" >"$work/springs.csv"
    echo "refused: $work/springs.csv$note" >"$work/wanted"
    call run pull.sim points.csv "$work/springs.csv"
    compare "a table that is refused$note" "$status" 2 "$work/nothing" "$work/wanted"
}

refused_table ': no header'
refused_table ' row 0, column 2: header' p0,p1,stiffness
refused_table ' row 1: width' p0,p1,k 0,1
refused_table ' row 2, column 2: empty cell' p0,p1,k 0,1,2 1,2,
refused_table ' row 1, column 2: bad byte at 1' p0,p1,k 0,1,2e3
refused_table ' row 1, column 2: too many decimals' p0,p1,k 0,1,2.5
refused_table ' row 1, column 2: too large' p0,p1,k 0,1,9223372036854775808
refused_table ' row 1, column 1: no such endpoint' p0,p1,k 0,3,2
