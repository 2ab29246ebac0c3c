#!/bin/sh
# Every packet of packets/ gets the lines of its file `expected` (packets/README.md): from the second program where cargo is there, and from the programs verdict and
# search, by ./desk, where the repository has them. What is not there is said and left out.
set -eu
cd "$(dirname "$0")/.."
room=$(mktemp -d)
trap 'rm -rf "$room"' EXIT
wrong=0 asked=0 by_second=0 by_desk=0

. tests/shared

# The four packets of the pumping works share a book.
for folder in packets/works/*/; do
  for file in rules.sx terms.sx; do
    cmp "packets/works/valve/$file" "$folder$file" || fail "$folder has another book"
  done
done

build_second 'the expected lines'

# The second program prints the strip that it finds after the line.
ask_second() { # FOLDER LINE WORD..
  by_second=$((by_second + 1))
  due=$2 command=$3
  case $2 in found*) due="$2 $(cat "$1/strip.sx")" ;; esac
  in=$1
  shift 3
  got=$("$second" "$command" "$in" "$@") || [ $? -eq 1 ] || got='no answer'
  [ "$got" = "$due" ] || fail "$in, $command $*: expected '$due', and the second program says '$got'"
}

# The desk is asked in a copy. Refused, it leaves strip.sx as it was; found, it leaves the strip; it changes nothing else.
ask_desk() { # FOLDER LINE WORD..
  by_desk=$((by_desk + 1))
  folder=$1 line=$2 command=$3
  shift 3
  rm -rf "$room/packet"
  cp -r "$folder" "$room/packet"
  kept=$folder/strip.sx
  if [ "$command" = search ]; then
    printf 'as it was' > "$room/was"
    cp "$room/was" "$room/packet/strip.sx"
    case $line in refused*) kept=$room/was ;; esac
  fi
  status=0
  got=$(./desk "$command" --quiet "$room/packet" "$@") || status=$?
  [ "$got" = "$line" ] || fail "$folder, $command $*: expected '$line', and the desk says '$got'"
  case $line in refused*) due=1 ;; *) due=0 ;; esac
  [ "$status" -eq "$due" ] || fail "$folder, $command $*: status $status"
  if [ -e "$kept" ]; then
    cmp "$kept" "$room/packet/strip.sx" || fail "$folder, $command $*: another strip.sx"
  else
    [ ! -e "$room/packet/strip.sx" ] || fail "$folder, $command $*: a strip.sx where none was"
  fi
  rm -f "$room/packet/strip.sx"
  for file in "$room/packet"/*; do
    cmp "$file" "$folder/${file##*/}" || fail "$folder, $command $*: ${file##*/} is not what it was"
  done
  [ "$(find "$folder" -type f ! -name strip.sx | wc -l)" -eq "$(find "$room/packet" -type f | wc -l)" ] || fail "$folder, $command $*: another file"
}

has() { [ -f "crates/$1/src/main.rt" ]; }
has verdict || echo 'no program verdict here: no packet is judged by the desk'
has search || echo 'no program search here: no strip is searched by the desk'

for expected in packets/*/expected packets/*/*/expected; do
  folder=${expected%/expected}
  while IFS= read -r row <&3; do
    question=${row%%:*} line=${row#*: }
    asked=$((asked + 1))
    # shellcheck disable=SC2086
    [ -z "$second" ] || ask_second "$folder" "$line" $question
    case $question in judge*) program=verdict ;; *) program=search ;; esac
    # shellcheck disable=SC2086
    ! has "$program" || ask_desk "$folder" "$line" $question
  done 3< "$expected"
done
echo "packets: $asked questions, $by_second answered by the second program, $by_desk by the desk; $wrong wrong"
[ "$wrong" -eq 0 ]
