#!/bin/sh
# The library to link: the examples in C and in Rust are built over libdesk.a and give the lines of packets/. What the machine cannot link is said and left out.
set -eu
cd "$(dirname "$0")/.."
room=$(mktemp -d)
trap 'rm -rf "$room"' EXIT
wrong=0 asked=0
tools/libdesk > "$room/log" 2>&1 || { cat "$room/log"; exit 1; }
[ "$(uname -m)" = x86_64 ] || { echo 'the archive is for x86-64, and this machine is not: the examples are skipped'; exit 0; }

# Asks the example all that packets/ asks; it prints a strip that is found after the line.
ask_all() { # EXAMPLE
  for expected in packets/*/expected packets/*/*/expected; do
    folder=${expected%/expected}
    while IFS= read -r row <&3; do
      question=${row%%:*} line=${row#*: }
      case $line in
        found*)
          line="$line
$(cat "$folder/strip.sx")"
          ;;
      esac
      words=${question#judge}
      asked=$((asked + 1))
      # shellcheck disable=SC2086
      got=$("$1" "$folder" ${words#search }) || [ $? -eq 1 ] || got='no answer'
      [ "$got" = "$line" ] || { echo "${1##*/}, $folder, $question: expected '$line', and it says '$got'"; wrong=$((wrong + 1)); }
    done 3< "$expected"
  done
}

# Whether a program of one line can be linked here, in C and in Rust.
echo 'int main(void) { return 0; }' > "$room/nothing.c"
echo 'fn main() {}' > "$room/nothing.rs"
if cc "$room/nothing.c" -o "$room/nothing" 2> /dev/null; then
  cc -std=c11 -Wall -Wextra -Werror -O2 -Iinclude examples/packet.c target/staticlib/libdesk.a -o "$room/in-c"
  ask_all "$room/in-c"
else
  echo 'no C compiler here that links: the example in C is skipped'
fi
if rustc "$room/nothing.rs" -o "$room/nothing" 2> /dev/null; then
  rustc -O --edition 2021 -L target/staticlib examples/packet.rs -o "$room/in-rust"
  ask_all "$room/in-rust"
else
  echo 'no rustc here that links: the example in Rust is skipped'
fi
echo "examples: $asked questions, $wrong answers wrong"
[ "$wrong" -eq 0 ]
