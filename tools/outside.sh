#!/bin/sh
# What the program does at the edges that only a shell can make: words, a directory as standard input, a full
# device as standard output, closed streams. Run it at the top: tools/outside.sh. It uses ./allsat, which builds
# the program where it is not built. A case that a machine can't make is skipped with a line that says so.
set -u
cd "$(dirname "$0")/.." || exit 1
work=$(mktemp -d) || exit 1
trap 'rm -rf "$work"' EXIT
wrong=0

# expect NAME STATUS NOTES OUT: compares what the last run left in $work with these.
expect() {
    if [ "$status" != "$2" ]; then
        echo "wrong: $1: status $status, wanted $2"
        wrong=1
    elif [ "$(cat "$work/notes")" != "$3" ]; then
        echo "wrong: $1: notes '$(cat "$work/notes")', wanted '$3'"
        wrong=1
    elif [ "$4" != - ] && [ "$(cat "$work/out")" != "$4" ]; then
        echo "wrong: $1: out '$(cat "$work/out")', wanted '$4'"
        wrong=1
    else
        echo "right: $1"
    fi
}

./allsat enumerate < examples/first.cnf > /dev/null || { echo "wrong: the program does not run"; exit 1; }

./allsat enumerate < examples/first.cnf > "$work/out" 2> "$work/notes"; status=$?
expect 'a formula is listed' 0 '' 'v -1 2 0
v 1 0
s ALL'

for words in '' 'list' 'enumerate enumerate' 'enumerate 5' '--help' 'enumerate --help' 'enumerate --' '--workers 2 enumerate' \
    'enumerate --workers' 'enumerate --workers 0' 'enumerate --workers 17' 'enumerate --workers -1' \
    'enumerate --workers 2 --workers 2' 'enumerate --budget' 'enumerate --budget 0' 'enumerate --budget +3' \
    'enumerate --budget 4611686018427387905' 'enumerate --budget=1 --budget=1' 'enumerate --size 4' \
    'check 1' 'check --workers 1' 'check check' \
    'drill' 'drill --size 0' 'drill --size 49' 'drill --size 4 --budget 3'; do
    # The words are to be split here.
    ./allsat $words < examples/first.cnf > "$work/out" 2> "$work/notes"; status=$?
    expect "the words '$words' are refused" 1 'allsat: words refused' ''
done

for words in '--workers=02' '--budget 4611686018427387904 --workers 16' '--workers 1 --budget=0003'; do
    ./allsat enumerate $words < examples/first.cnf > "$work/out" 2> "$work/notes"; status=$?
    expect "the words 'enumerate $words' are a command" 0 '' 'v -1 2 0
v 1 0
s ALL'
done

printf 'p cnf 4097 0\n' | ./allsat enumerate > "$work/out" 2> "$work/notes"; status=$?
expect '4097 variables may be shown' 0 '' 'v 0
s ALL'

printf '\377' > "$work/word"
./allsat "$(cat "$work/word")" < examples/first.cnf > "$work/out" 2> "$work/notes"; status=$?
expect 'a word that is no text is refused' 1 'allsat: words refused' ''

printf 'p cnf 2 1\n1 3 0\n' | ./allsat enumerate > "$work/out" 2> "$work/notes"; status=$?
expect 'a variable above the header is refused' 2 'allsat: input refused: 6 VariableTooLarge line 2' ''

# A run that stops after one leaf, and what goes on from its text.
saved='c allsat saved 2
p cnf 2 2
1 2 0
-1 -2 0
c p show 1 2 0
c p under 0
c p cube -1 2 0
c p open 1 0
c p end'
listing='v -1 2 0
v 1 -2 0
s ALL'
printf 'p cnf 2 2\n1 2 0\n-1 -2 0\n' > "$work/formula"
./allsat enumerate --budget 1 < "$work/formula" > "$work/out" 2> "$work/notes"; status=$?
expect 'a budget of one leaf is spent' 3 'allsat: budget spent' "$saved"
cp "$work/out" "$work/saved"

./allsat enumerate < "$work/saved" > "$work/out" 2> "$work/notes"; status=$?
expect 'a run goes on from a saved text' 0 '' "$listing"

./allsat enumerate --budget=0001 < "$work/saved" > "$work/out" 2> "$work/notes"; status=$?
expect 'the last leaf of a budget finishes' 0 '' "$listing"

./allsat enumerate --budget 2 < "$work/formula" > "$work/out" 2> "$work/notes"; status=$?
expect 'a budget of all leaves finishes' 0 '' "$listing"

sed '$d' "$work/saved" | ./allsat enumerate > "$work/out" 2> "$work/notes"; status=$?
expect 'a saved text without its end is refused' 2 'allsat: input refused: 17 SavedUnended line 8' ''

if [ -c /dev/full ]; then
    ./allsat enumerate --budget 1 < "$work/formula" > /dev/full 2> "$work/notes"; status=$?
    expect 'a full device as the output of a saved text is a write fault' 6 'allsat: write fault' -
else
    echo 'skipped: no /dev/full here'
fi

./allsat drill --size 4 < "$work" > "$work/out" 2> "$work/notes"; status=$?
expect 'a drill takes no input' 0 '' 'f -3 4 0
s ALL'

./allsat drill --workers 2 --size=24 < /dev/null > "$work/out" 2> "$work/notes"; status=$?
expect 'a drill of size 24' 0 '' 'f -3 4 -7 8 -11 12 -15 16 -19 20 -23 24 0
s ALL'

./allsat check < examples/met.cnf > "$work/out" 2> "$work/notes"; status=$?
expect 'a right listing is checked' 0 '' 's RIGHT'

sed 's/c p met 1 0 -2 0/c p met 1 0 2 0/' examples/met.cnf | ./allsat check > "$work/out" 2> "$work/notes"; status=$?
expect 'a cube that does not meet a clause is named' 7 'allsat: check said no' 's NOTMET 2 2'

sed 's/^c p end/c p met 1 0 -2 0\nc p end/' examples/met.cnf | ./allsat check > "$work/out" 2> "$work/notes"; status=$?
expect 'two cubes that overlap are named' 7 'allsat: check said no' 's OVERLAP 2 3'

./allsat check < examples/first.cnf > "$work/out" 2> "$work/notes"; status=$?
expect 'a text that is no met text is not checked' 2 'allsat: input refused: 19 NoMetText line 1' ''

./allsat check < "$work" > "$work/out" 2> "$work/notes"; status=$?
expect 'a check of a directory is a read fault' 5 'allsat: read fault line 1' ''

if [ -c /dev/full ]; then
    ./allsat check < examples/met.cnf > /dev/full 2> "$work/notes"; status=$?
    expect 'a full device as the output of a verdict is a write fault' 6 'allsat: write fault' -
else
    echo 'skipped: no /dev/full here'
fi

./allsat enumerate < /dev/null > "$work/out" 2> "$work/notes"; status=$?
expect 'the empty text is refused' 2 'allsat: input refused: 4 NoHeader line 1' ''

printf 'p cnf 2 1\n1 2 0\n-1 0' | ./allsat enumerate > "$work/out" 2> "$work/notes"; status=$?
expect 'a clause too many is refused with both numbers' 2 'allsat: input refused: 8 ClauseCount line 3 said 1 found 2' ''

./allsat enumerate < "$work" > "$work/out" 2> "$work/notes"; status=$?
expect 'a directory as standard input is a read fault' 5 'allsat: read fault line 1' ''

if [ -c /dev/full ]; then
    ./allsat enumerate < examples/first.cnf > /dev/full 2> "$work/notes"; status=$?
    expect 'a full device as standard output is a write fault' 6 'allsat: write fault' -
else
    echo 'skipped: no /dev/full here'
fi

./allsat enumerate < examples/first.cnf 2> "$work/notes" >&-; status=$?
expect 'a closed standard output is a write fault' 6 'allsat: write fault' -

for example in examples/*.cnf; do
    if command -v python3 > /dev/null; then
        ./allsat enumerate < "$example" > "$work/out" && tools/check_listing.py "$example" < "$work/out" > "$work/said"; status=$?
        cat "$work/said" | sed "s|^|$example: |"
        [ "$status" = 0 ] || wrong=1
    else
        echo "skipped: no python3 here to check the listing of $example"
    fi
done
if command -v python3 > /dev/null; then
    tools/readme.py || wrong=1
    tools/test_manual.py || wrong=1
    tools/test_checker.py || wrong=1
    tools/random_texts.py 300 || wrong=1
    tools/fronts.py || wrong=1
    tools/test_scaling.py || wrong=1
else
    echo 'skipped: no python3 here to run the commands of README, to check random texts and fronts, and to split runs'
fi
exit "$wrong"
