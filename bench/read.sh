#!/bin/sh
# Measures how long reading takes: a design of 1 MiB and one of half, definitions of 4 MiB and of 2 MiB. Each is read by
# the built program `text_tests` five times, or as often as the first word says, and the least wall time counts. Build
# it before: `rt run -- design <data/c.ccn` in crates/text_tests.

top=$(CDPATH='' cd -- "$(dirname -- "$0")/.." && pwd) || exit 2
program=$top/crates/text_tests/out/text_tests
runs=${1:-5}

if ! [ -x "$program" ]; then
  echo 'read.sh: run `rt run -- design <data/c.ccn` in crates/text_tests first' >&2
  exit 2
fi

folder=$(mktemp -d) || exit 2
trap 'rm -rf "$folder"' EXIT

# A packet, and then functions with long values and roles with long bodies, of at most so many bytes.
design() {
  awk -v bytes="$1" '
    function sum(name, count,   text, i) {
      text = name
      for (i = 1; i < count; i++) text = text (i % 3 ? " + " : " ^ ") name
      return text
    }
    function role(number,   text, i) {
      text = "role R" number "[a: bit<16>, b: bit<16>] | h(a) and b < 16w64 = {\n"
      for (i = 0; i < 40; i++) {
        text = text "  if (pkt.e.tag == 8w" i " and h(" sum("a", 8) ")) {\n"
        text = text "    let x" i ": bit<16> = (h(a) ? f" number "(a, b) : " sum("b", 20) ");\n"
        text = text "    pkt.e.tag = (8w1 ++ pkt.e.tag)[7:0];\n  } else { filter not h(b) or b == " sum("a", 60) "; }\n"
      }
      return text "  send R" number + 1 "[" sum("a", 40) ", " sum("b", 40) "];\n}\n"
    }
    function part(number) {
      return "function f" number "(a: bit<16>, b: bit<16>): bit<16> = " sum("(a & ~ b)", 30) ";\n" role(number)
    }
    BEGIN {
      printf "packet { header e { tag: bit<8>; } }\nfunction h(a: bit<16>): bool;\n"
      written = 67
      for (number = 0; ; number++) {
        next_part = part(number)
        if (written + length(next_part) > bytes) break
        printf "%s", next_part
        written += length(next_part)
      }
    }'
}

# A default, and then rows, of at most so many bytes.
definitions() {
  awk -v bytes="$1" '
    BEGIN {
      written = printed("default acl = false;\n")
      for (number = 0; ; number++) {
        row = "define acl(32w" number ", 32w" number * 7 " &&& 32w0xffffff00, _) = " (number % 2 ? "true" : "false") ";\n"
        if (written + length(row) > bytes) break
        written += printed(row)
      }
    }
    function printed(text) {
      printf "%s", text
      return length(text)
    }'
}

# The wall time of one run over a file, in microseconds.
taken() {
  before=$(date +%s%N)
  "$program" "$1" <"$2" >"$folder/said" || return 1
  after=$(date +%s%N)
  [ "$(cat "$folder/said")" = read ] || return 1
  echo "$(((after - before) / 1000))"
}

# The lesser of two numbers, of which the first may be missing.
lesser() {
  if [ -z "$1" ] || [ "$2" -lt "$1" ]; then echo "$2"; else echo "$1"; fi
}

# The least times of a whole text and of its half, run in turn, and their ratio.
compare() {
  whole=
  half=
  for _ in $(seq "$runs"); do
    time=$(taken "$1" "$folder/whole") || return 1
    whole=$(lesser "$whole" "$time")
    time=$(taken "$1" "$folder/half") || return 1
    half=$(lesser "$half" "$time")
  done
  ratio=$(awk -v a="$whole" -v b="$half" 'BEGIN { printf "%.2f", a / b }')
  echo "$1: $(wc -c <"$folder/whole") bytes in $whole us, $(wc -c <"$folder/half") bytes in $half us, ratio $ratio"
}

design 1048576 >"$folder/whole"
design 524288 >"$folder/half"
compare design || { echo 'read.sh: a design does not read' >&2; exit 1; }
definitions 4194304 >"$folder/whole"
definitions 2097152 >"$folder/half"
compare definitions || { echo 'read.sh: definitions do not read' >&2; exit 1; }
