#!/bin/sh
# A read or a write that fails is not the end of the input: the program says on standard error which stream it was, and prints no last line.
# `make check-streams` calls it.
set -eu
cd "$(dirname "$0")/.."

said=$(mktemp) printed=$(mktemp)
trap 'rm -f "$said" "$printed"' EXIT
failed=0

wrong() {
  echo "streams: $*"
  failed=1
}

for program in ingress report records; do
  # HOW PRINTED SAID: what the program has printed, and what stands on standard error
  is() {
    [ "$(cat "$printed")" = "$2" ] || wrong "$program $1 prints '$(cat "$printed")'"
    [ "$(cat "$said")" = "$3" ] || wrong "$program $1 says '$(cat "$said")' and not '$3'"
    : >"$printed"
  }
  run() { tools/x86-64 run "target/bin/$program" 2>"$said" || true; }
  input=crates/$program/stdin

  run </ >"$printed"
  is '</' '' "$program: standard input cannot be read"
  run <&- >"$printed"
  is '<&-' '' "$program: standard input cannot be read"
  run <"$input" >/dev/full
  is '>/dev/full' '' "$program: standard output cannot be written"
  run <"$input" >&-
  is '>&-' '' "$program: standard output cannot be written"
  run <"$input" >"$printed"
  is '' "$(cat "crates/$program/stdout")" ''
done

[ "$failed" -eq 0 ] || exit 1
echo 'streams: 3 programs, 5 ways each, 0 differences'
