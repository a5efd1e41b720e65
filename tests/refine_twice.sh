#!/bin/sh
# refine_twice.sh: the built program on files. Two passes at once and one and one give the same bytes, with the words of the first run's card;
# a refusal and a word that is not understood write nothing to standard output; the largest result is made on the default stack.
# Run in the repository's folder after `rt run` in crates/refine. The last line is 'N tests, M failed'; the status is 0 exactly if M is 0.
ulimit -s 8192
refine=crates/refine/out/refine
cages=crates/runs_refine/data
dir=$(mktemp -d) || exit 2
trap 'rm -r "$dir"' EXIT
tests=0
failed=0

# verdict NAME STATUS
verdict() {
    tests=$((tests + 1))
    [ "$2" -eq 0 ] && return
    failed=$((failed + 1))
    echo "failed: $1"
}

# word N FILE: the Nth word of a card
word() { cut -d ' ' -f "$1" "$2"; }

# twice CAGE FLAG: the second run is asked with what the first one's card says
twice() {
    $refine catmull 2 "$2" < "$1" > "$dir/two" 2> "$dir/card2"
    $refine catmull 1 "$2" < "$1" > "$dir/one" 2> "$dir/card1"
    $refine "$(word 2 "$dir/card1")" "$(word 4 "$dir/card1")" "$(word 8 "$dir/card1")" < "$dir/one" > "$dir/one_and_one" 2> "$dir/card"
    cmp -s "$dir/two" "$dir/one_and_one" && [ -s "$dir/two" ]
    verdict "two passes and one and one of $1, $2" $?
    [ "$(cut -d ' ' -f 7- "$dir/card2")" = "$(cut -d ' ' -f 7- "$dir/card")" ]
    verdict "the cards of $1, $2" $?
    $refine catmull 1 "$2" < "$1" 2> "$dir/card1" | $refine catmull 1 "$2" 2> "$dir/card" | cmp -s "$dir/two" -
    verdict "in a pipe, $1, $2" $?
}

# says LINE CAGE WORDS..: nothing on standard output, and this first line on standard error
says() {
    line=$1 cage=$2
    shift 2
    $refine "$@" < "$cage" > "$dir/out" 2> "$dir/err"
    [ ! -s "$dir/out" ] && [ "$(head -n 1 "$dir/err")" = "$line" ]
    verdict "refine $* < $cage: $line" $?
}

for cage in "$cages"/*; do
    twice "$cage" update
    twice "$cage" keep
done

cube=$cages/cube
[ "$($refine catmull 2 update < "$cube" 2>&1 > "$dir/out")" = 'refined catmull passes 2 flag update next update vertices 98 edges 192 faces 96 rim 0' ]
verdict 'the card of the cube' $?
$refine catmull 0 keep < "$cube" 2> "$dir/err" | cmp -s "$cube" -
verdict 'no pass copies the file' $?

usage='usage: refine catmull PASSES update|keep < cage > result'
says "$usage" "$cube"
says "$usage" "$cube" catmull 2
says "$usage" "$cube" catmull 2 update more
says 'not understood: loop' "$cube" loop 2 update
says 'not understood: Catmull' "$cube" Catmull 2 update
says 'not understood: two' "$cube" catmull two update
says 'not understood: -1' "$cube" catmull -1 update
says 'not understood: 1000' "$cube" catmull 1000 update
says 'not understood: ' "$cube" catmull '' update
says 'not understood: true' "$cube" catmull 2 true
says 'refused 1' "$cube" catmull 13 update
says 'refused 1' "$cube" catmull 999 keep
says 'refused 5' "$cube" catmull 7 update
says 'refused 15' /dev/null catmull 1 update
counter=crates/runs_counter/data
says 'refused 15' $counter/longer catmull 1 update
says 'refused 16' $counter/nan catmull 1 update
says 'refused 3 rule 2 halfedge 0' $counter/broken catmull 1 update
says 'refused 4 vertex 8' $counter/deleted catmull 1 update

# the most bytes that are taken, and one more
head -c 2901056 /dev/zero > "$dir/full"
head -c 2901057 /dev/zero > "$dir/over"
says 'refused 15' "$dir/full" catmull 1 update
says 'refused 2' "$dir/over" catmull 1 update

# as many faces as there is room for
$refine catmull 4 update < "$cages/largest" > "$dir/large" 2> "$dir/err"
[ "$(cat "$dir/err")" = 'refined catmull passes 4 flag update next update vertices 28672 edges 57344 faces 28672 rim 0' ]
verdict 'the largest result' $?
$refine catmull 3 update < "$cages/largest" 2> "$dir/err" | $refine catmull 1 update 2> "$dir/err" | cmp -s "$dir/large" -
verdict 'the largest result, by three passes and one' $?
says 'refused 5' "$cages/largest" catmull 5 update

echo "$tests tests, $failed failed"
[ "$failed" -eq 0 ]
