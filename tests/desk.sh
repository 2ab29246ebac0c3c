#!/bin/sh
# ./desk by itself: bad usage is one line and status 2, and nothing is written; where the repository has the programs, the line in plain words, and heights one after another.
set -eu
cd "$(dirname "$0")/.."
room=$(mktemp -d)
trap 'rm -rf "$room"' EXIT
wrong=0 asked=0

. tests/shared

refuses() { # SAID WORD..
  said=$1
  shift
  says 2 '' "desk: $said" "$@"
  [ "$(wc -l < "$room/said")" -eq 1 ] || { echo "desk $*: more than one line"; wrong=$((wrong + 1)); }
}

how='(./desk help says how it is used)'
packet=$room/packet
cp -r packets/b "$packet"
mkdir "$room/odd" "$room/odd/goal.sx"
find "$packet" "$room/odd" -type f -exec cksum {} + > "$room/before"
refuses "what is to be done? $how"
refuses "no such command: weigh $how" weigh "$packet"
refuses "no such option: --loud $how" judge --loud "$packet"
refuses "judge takes one folder $how" judge
refuses "judge takes one folder $how" judge "$packet" 3
refuses "search takes a folder, a height and perhaps a size $how" search "$packet"
refuses "the height is no number: three $how" search "$packet" three
refuses "the height is no number:  $how" search "$packet" ''
refuses "the size is no number: 3k $how" search "$packet" 3 3k
refuses "a strip has at most 16384 bytes $how" search "$packet" 3 16385
refuses "a strip has at most 16384 bytes $how" search "$packet" 3 99999999999999999999
refuses "search takes a folder, a height and perhaps a size $how" search "$packet" 3 34 5
refuses "check takes nothing more $how" check "$packet"
refuses "there is no folder $room/nowhere" judge "$room/nowhere"
refuses "there is no folder $room/nowhere" search "$room/nowhere" 3
refuses "there is no folder $packet/rules.sx" judge "$packet/rules.sx"
refuses "$room/odd/goal.sx cannot be read" judge "$room/odd"
refuses "$room/odd/goal.sx cannot be read" search --upto "$room/odd" 3
find "$packet" "$room/odd" -type f -exec cksum {} + | cmp - "$room/before" || { echo 'a refused call has written'; wrong=$((wrong + 1)); }

explains() { # NUMBER FILE PLACE WHY WORD..
  line="refused $1 $2 $3" why="refusal $1: $4"
  shift 4
  says 1 "$line" "desk: $why" "$@"
}

if [ -f crates/verdict/src/main.rt ]; then
  ./desk judge "$packet" > "$room/first" 2>&1 || true
  says 0 'accepted 3 3' '' judge "$packet"
  explains 7 4 20 'strip.sx is no proof: the first node that does not fit is (3:use1:0()), at byte 20' judge packets/case-02-rule-for-supposition
  explains 2 4 0 'strip.sx is missing, which counts as empty, and an empty file is not one canonical S-expression' judge packets/case-11-strip-missing
  explains 4 2 0 'goal.sx is not built from the table of words' judge packets/case-11-goal-a-string
  explains 6 1 0 'rules.sx has more than 256 rules' judge packets/case-12-rules-257
  explains 3 3 0 'terms.sx has a list at level 65 or deeper' judge packets/case-12-nesting-65-terms
  says 1 'refused 7 4 20' '' judge --quiet packets/case-02-rule-for-supposition
else
  echo 'no program verdict here: what the desk says after a verdict is not tried'
fi

if [ -f crates/search/src/main.rt ]; then
  ./desk search "$packet" 0 > "$room/first" 2>&1 || true
  find "$packet" -type f -exec cksum {} + > "$room/packets"
  explains 8 0 0 'no proof of the goal within height 2, from these rules and candidates' search "$packet" 2
  explains 8 0 0 'no proof of the goal within height 2, from these rules and candidates' search --upto "$packet" 2
  explains 9 0 0 'the height is over 32' search "$packet" 33
  explains 10 0 0 'there is a proof, but the first strip is longer than 33 bytes' search "$packet" 3 33
  explains 9 0 0 'the height is over 32' search "$packet" 99999999999999999999999999
  explains 9 0 0 'the height is over 32' search --upto packets/case-09-either 99999999999999999999999999
  says 1 'refused 8 0 0' 'desk: height 2' search --quiet --upto "$packet" 2
  [ "$(wc -l < "$room/said")" -eq 2 ] || { echo 'not the heights 1, 2'; wrong=$((wrong + 1)); }
  says 1 'refused 8 0 0' 'desk: height 0' search --quiet --upto "$packet" 0
  explains 2 1 0 'rules.sx is missing, which counts as empty, and an empty file is not one canonical S-expression' search "$room/odd/.." 3
  find "$packet" -type f -exec cksum {} + | cmp - "$room/packets" || { echo 'a refused search has written'; wrong=$((wrong + 1)); }
  says 0 'found 3 3 34' 'desk: height 3' search "$packet" 032 --upto
  [ "$(wc -l < "$room/said")" -eq 3 ] || { echo 'not the heights 1, 2, 3'; wrong=$((wrong + 1)); }
  says 0 'found 3 3 34' '' search "$packet" 00003 016384
  cmp packets/b/strip.sx "$packet/strip.sx" || { echo 'another strip'; wrong=$((wrong + 1)); }

  # What cannot be written gets no verdict, and nothing is left of it.
  : > "$packet/strip.sx.new"
  says 2 '' 'desk: the program gave no answer' search "$packet" 3
  grep -q '^search: strip.sx.new: ' "$room/said" || { echo 'no line on the name that is taken'; wrong=$((wrong + 1)); }
  rm "$packet/strip.sx.new" "$packet/strip.sx"
  mkdir "$packet/strip.sx"
  says 2 '' 'desk: the program gave no answer' search "$packet" 3
  grep -q '^search: strip.sx: ' "$room/said" || { echo 'no line on the name that cannot be given'; wrong=$((wrong + 1)); }
  [ ! -e "$packet/strip.sx.new" ] || { echo 'strip.sx.new is left'; wrong=$((wrong + 1)); }

  # The program by itself: what is no decimal number gets the usage line on standard error, and nothing else.
  for words in '' 'three' '-3' '3x' '3 3k' '3 16385' '3 34 5'; do
    asked=$((asked + 1))
    # shellcheck disable=SC2086
    got=$(./run search packets/b $words 2> "$room/said")
    { [ -z "$got" ] && [ "$(cat "$room/said")" = 'usage: search HEIGHT [SIZE], two decimal numbers, SIZE at most 16384' ]; } || { echo "search $words: $got"; wrong=$((wrong + 1)); }
  done
else
  echo 'no program search here: what the desk says after a search is not tried'
fi
echo "desk: $asked calls, $wrong wrong"
[ "$wrong" -eq 0 ]
