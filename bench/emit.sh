#!/bin/sh
# Measures how long printing takes: a P4 program whose text has 4 MiB, and one of half. Each is made of words and printed by
# the built program `text_tests` five times, or as often as the first word says, and the least wall time counts. Build it
# before: `rt run -- print </dev/null` in crates/text_tests.

top=$(CDPATH='' cd -- "$(dirname -- "$0")/.." && pwd) || exit 2
program=$top/crates/text_tests/out/text_tests
runs=${1:-5}

if ! [ -x "$program" ]; then
  echo 'emit.sh: run `rt run -- print </dev/null` in crates/text_tests first' >&2
  exit 2
fi

folder=$(mktemp -d) || exit 2
trap 'rm -rf "$folder"' EXIT

# The words of a program with so many tables, and for each an assignment and an `if` with an `else`.
words() {
  echo 'field:src:32 field:dst:32 header:ip meta:site:8 meta:k0_0:32 meta:k0_1:16 meta:r0:16'
  echo "\"$1 ternary:#:3:1,2 \""
  echo "\"$1 h:0.0 h:0.1 + m:1 ^ set:1 h:0.0 slice:15.0 port == m:1 32w4294967295 < && { apply:# m:3 16w3 < port 16w1 ? set:2 } { m:1 slice:31.24 m:0 ++ ~ set:2 port 16w1 - egress_port verdict:1 return } else \""
}

# How many bytes the text of a program with so many tables has.
length() {
  words "$1" | "$program" print | wc -c
}

# The words of a program whose text has at most so many bytes. Numbers of tables have up to five digits.
fitting() {
  count=$(($1 / 480))
  while [ "$(length "$count")" -gt "$1" ]; do count=$((count - count / 100 - 1)); done
  words "$count"
}

# The wall time of one run over a file, in microseconds.
taken() {
  before=$(date +%s%N)
  "$program" print <"$1" >"$folder/text" || return 1
  after=$(date +%s%N)
  echo "$(((after - before) / 1000))"
}

# The lesser of two numbers, of which the first may be missing.
lesser() {
  if [ -z "$1" ] || [ "$2" -lt "$1" ]; then echo "$2"; else echo "$1"; fi
}

fitting 4194304 >"$folder/whole"
fitting 2097152 >"$folder/half"
whole=
half=
for _ in $(seq "$runs"); do
  time=$(taken "$folder/whole") || exit 1
  whole=$(lesser "$whole" "$time")
  time=$(taken "$folder/half") || exit 1
  half=$(lesser "$half" "$time")
done
bytes_whole=$("$program" print <"$folder/whole" | wc -c)
bytes_half=$("$program" print <"$folder/half" | wc -c)
awk -v a="$whole" -v b="$half" -v m="$bytes_whole" -v n="$bytes_half" \
  'BEGIN { printf "%d bytes in %d us, %d bytes in %d us, ratio %.2f\n", m, a, n, b, a / b }'
