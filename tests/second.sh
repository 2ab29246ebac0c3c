#!/bin/sh
# The second program's own tests; that its cases leave no answer out; and that the stored cases and answers are those that it makes.
# Without cargo there is nothing to run: the stored cases and answers are then taken as they stand.
set -eu
cd "$(dirname "$0")/../second"
command -v cargo > /dev/null || { echo 'no cargo here: the second program is not run'; exit 0; }
cargo test --release --quiet
cargo build --release --quiet
second=target/release/second
whole=$(mktemp)
trap 'rm -f "$whole"' EXIT

# The cases in a program's data/ and the answers in its stdout.
stored() {
  "$second" "$2-cases" ${3:-} | cmp - "../crates/$1/data/cases"
  "$second" "$2-answers" < "../crates/$1/data/cases" | cmp - "../crates/$1/stdout"
}

# The same where the cases are in parts.
stored_parts() { # PROGRAM KIND PART..
  program=$1 kind=$2
  shift 2
  for part; do "$second" "$kind-cases" "$part" | cmp - "../crates/$program/data/cases$part"; done
  for part; do "$second" "$kind-answers" < "../crates/$program/data/cases$part"; done | cmp - "../crates/$program/stdout"
}

# The same where each part is stored in two files, one after the other.
stored_halves() {
  "$second" "$2-cases" 1 > "$whole"
  cat "../crates/$1/data/cases1" "../crates/$1/data/cases2" | cmp - "$whole"
  "$second" "$2-cases" 2 > "$whole"
  cat "../crates/$1/data/cases3" "../crates/$1/data/cases4" | cmp - "$whole"
  for part in 1 2 3 4; do "$second" "$2-answers" < "../crates/$1/data/cases$part"; done | cmp - "../crates/$1/stdout"
}

"$second" carrier-cases | "$second" carrier-counts
{ "$second" packet-cases 1; "$second" packet-cases 2; } | "$second" packet-counts
{ "$second" judge-cases 1; "$second" judge-cases 2; } | "$second" judge-counts
for part in 1 2 3 4 5; do "$second" search-cases "$part"; done | "$second" search-counts
for part in 1 2 3 4; do "$second" tptp-cases "$part"; done | "$second" tptp-counts

stored carrier_cases carrier
stored_parts packet_cases packet 1 2
stored_halves judge_cases judge
stored_parts search_cases search 1 2 3 4 5 5 5 # the last part in rooms of three lengths: the same answers
stored_parts tptp_cases tptp 1 2 3 4
