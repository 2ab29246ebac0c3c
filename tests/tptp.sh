#!/bin/sh
# Rule books in TPTP (document 02, One): the works' book becomes the very files of its packets, each refusal has its line and writes nothing, and what cannot be written is said.
# Asked of the second program where cargo is there, and of ./desk tptp where the repository has the program book. What is not there is said and left out.
set -eu
cd "$(dirname "$0")/.."
room=$(mktemp -d)
trap 'rm -rf "$room"' EXIT
wrong=0 asked=0

. tests/shared

build_second 'the lines'
desk=
if [ -f crates/book/src/main.rt ]; then
  desk=./desk
  mkdir "$room/first"
  ./desk tptp packets/works/valve/book.p "$room/first" > "$room/said" 2>&1 || true
else
  echo 'no program book here: nothing is asked of the desk'
fi

# A folder that holds files of these names already.
fresh() {
  rm -rf "$room/made"
  mkdir "$room/made"
  printf 'rules as they were' > "$room/made/rules.sx"
  printf 'goal as it was' > "$room/made/goal.sx"
  printf 'terms' > "$room/made/terms.sx"
}

# The folder holds these two files, the terms as they were, and nothing else.
left() { # WHAT RULES GOAL
  cmp "$2" "$room/made/rules.sx" || fail "$1: another rules.sx"
  cmp "$3" "$room/made/goal.sx" || fail "$1: another goal.sx"
  [ "$(cat "$room/made/terms.sx")" = terms ] || fail "$1: another terms.sx"
  [ "$(find "$room/made" -type f | wc -l)" -eq 3 ] || fail "$1: another file"
}

# The book becomes these two files.
becomes() { # BOOK RULES GOAL
  rules=$(cat "$2") goal=$(cat "$3")
  line="written ${#rules} ${#goal}"
  if [ -n "$second" ]; then
    asked=$((asked + 1))
    got=$("$second" tptp "$1") || [ $? -eq 1 ] || got='no answer'
    [ "$got" = "$line $rules $goal" ] || fail "$1: expected '$line' and the files, and the second program says '$got'"
  fi
  [ -n "$desk" ] || return 0
  fresh
  says 0 "$line" '' tptp "$1" "$room/made"
  left "$1" "$2" "$3"
}

# The book is refused, and the files are as they were.
refuses() { # NUMBER WHY BOOK
  line="refused $1 1 0"
  if [ -n "$second" ]; then
    asked=$((asked + 1))
    got=$("$second" tptp "$3") || [ $? -eq 1 ] || got='no answer'
    [ "$got" = "$line" ] || fail "$3: expected '$line', and the second program says '$got'"
  fi
  [ -n "$desk" ] || return 0
  fresh
  printf 'rules as they were' > "$room/rules"
  printf 'goal as it was' > "$room/goal"
  says 1 "$line" "desk: refusal $1: $3 $2" tptp "$3" "$room/made"
  says 1 "$line" '' tptp --quiet "$3" "$room/made"
  left "$3" "$room/rules" "$room/goal"
}

# The works' book, and the same axioms with the conjectures of its other requests.
works=packets/works
becomes "$works/valve/book.p" "$works/valve/rules.sx" "$works/valve/goal.sx"
request() { # FOLDER CONJECTURE
  sed '/^fof(request,conjecture,/,$d' "$works/valve/book.p" > "$room/the book.p"
  printf 'fof(request,conjecture,%s).' "$2" >> "$room/the book.p"
  becomes "$room/the book.p" "$works/$1/rules.sx" "$works/$1/goal.sx"
}
request every-pump '![P]:(pump(P)=>(shut(delivery(P))=>blind(P)))'
request refused 'shut(v6) => enter(main)'
request key '/* v6 */ shut(v6) % and the main
  => key(main)'

# Every refusal, and the sizes on both sides.
lines() { # NUMBER LINE
  awk -v n="$1" -v line="$2" 'BEGIN { while (n-- > 0) print line }'
}
text=$room/text.p
printf 'fof(a,axiom,p).fof(c,conjecture,q).' > "$room/small.p"
printf '(5:rules(4:atom1:p))' > "$room/small.rules"
printf '(4:atom1:q)' > "$room/small.goal"
becomes "$room/small.p" "$room/small.rules" "$room/small.goal"
{ cat "$room/small.p"; printf '%%'; head -c 16348 /dev/zero; } > "$text"
becomes "$text" "$room/small.rules" "$room/small.goal"
printf '\n' >> "$text"
refuses 1 'has more than 16,384 bytes' "$text"
outside='is sound TPTP, but not within the part that the desk reads: axioms that are clauses, and one conjecture that is a goal'
: > "$text"
refuses 13 "$outside" "$text"
printf 'fof(c,conjecture,p).fof(d,conjecture,p).' > "$text"
refuses 13 "$outside" "$text"
printf 'fof(a,axiom,! [X] : p(X) => q(X)).fof(c,conjecture,q).' > "$text"
refuses 13 "$outside" "$text"
unsound="is no list of fof lines by TPTP's grammar"
printf 'fof(a,axiom,~ p).fof(c,conjecture,p & q | r).' > "$text"
refuses 12 "$unsound" "$text"
printf 'include(rules).' > "$text"
refuses 12 "$unsound" "$text"
{ lines 257 'fof(a,axiom,p).'; printf 'fof(c,conjecture,q).'; } > "$text"
refuses 6 'has more than 256 axioms' "$text"
{ lines 256 'fof(a,axiom,p).'; printf 'fof(c,conjecture,q).'; } > "$text"
{ printf '(5:rules'; lines 256 '(4:atom1:p)' | tr -d '\n'; printf ')'; } > "$room/rules"
becomes "$text" "$room/rules" "$room/small.goal"
{ printf 'fof(c,conjecture,q'; lines 64 '&q'; printf ').'; } > "$text"
refuses 3 'would give rules or a goal with a list at level 65 or deeper' "$text"
{ printf 'fof(c,conjecture,q(a'; lines 2100 ',a'; printf ')).'; } > "$text"
refuses 10 'would give rules or a goal of more than 16,384 bytes' "$text"

if [ -n "$desk" ]; then
  # Bad usage is one line and status 2, and nothing is written.
  no() { # SAID WORD..
    said=$1
    shift
    says 2 '' "desk: $said" "$@"
    [ "$(wc -l < "$room/said")" -eq 1 ] || fail "desk $*: more than one line"
  }
  how='(./desk help says how it is used)'
  book=$works/valve/book.p
  fresh
  printf 'rules as they were' > "$room/rules"
  printf 'goal as it was' > "$room/goal"
  no "tptp takes a book and a folder $how" tptp
  no "tptp takes a book and a folder $how" tptp "$book"
  no "tptp takes a book and a folder $how" tptp "$book" "$room/made" 3
  no "tptp takes a book and a folder $how" tptp --upto "$book" "$room/made"
  no "the book $room/nothing.p cannot be read" tptp "$room/nothing.p" "$room/made"
  no "the book $room/made cannot be read" tptp "$room/made" "$room/made"
  no "there is no folder $room/nowhere" tptp "$book" "$room/nowhere"
  left 'bad usage' "$room/rules" "$room/goal"

  # What cannot be written gets no answer, and nothing is left of it.
  for name in rules.sx goal.sx; do
    : > "$room/made/$name.new"
    says 2 '' 'desk: the program gave no answer' tptp "$book" "$room/made"
    grep -q "^book: $name.new: " "$room/said" || fail "no line on $name.new, which is taken"
    rm "$room/made/$name.new"
    left "$name.new is taken" "$room/rules" "$room/goal"
  done
  for name in rules.sx goal.sx; do
    fresh
    rm "$room/made/$name"
    mkdir "$room/made/$name"
    no "$room/made/$name cannot be read" tptp "$book" "$room/made"
    asked=$((asked + 1))
    got=$(./run book "$room/made" "$PWD/$book" 2> "$room/said")
    [ -z "$got" ] || fail "book: $name is a folder, and it says '$got'"
    grep -q "^book: $name: " "$room/said" || fail "no line on $name, which cannot be given"
    [ -z "$(find "$room/made" -name '*.new')" ] || fail "a file under another name is left"
  done

  # The program by itself: book.p if no name is given, a missing file counts as empty, and the usage line on standard error for anything else.
  fresh
  line=$(./run book "$room/made")
  [ "$line" = 'refused 13 1 0' ] || fail "no book.p: $line"
  left 'no book.p' "$room/rules" "$room/goal"
  cp "$room/small.p" "$room/made/book.p"
  line=$(./run book "$room/made")
  rm "$room/made/book.p"
  [ "$line" = 'written 20 11' ] || fail "book.p: $line"
  left 'book.p' "$room/small.rules" "$room/small.goal"
  long=$(lines 4096 x | tr -d '\n')
  usage() { # WORD..
    asked=$((asked + 1))
    got=$(./run book "$room/made" "$@" 2> "$room/said")
    { [ -z "$got" ] && [ "$(cat "$room/said")" = 'usage: book [FILE], a name of at most 4095 bytes' ]; } || fail "book with $# words: $got"
  }
  usage ''
  usage "$long"
  usage book.p other.p
fi
echo "tptp: $asked calls, $wrong wrong"
[ "$wrong" -eq 0 ]
