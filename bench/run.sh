#!/usr/bin/env bash
# Builds the named benchmarks (all where none is named) over what is proved, and runs them: nanoseconds, beside plain Rust as ratios.
set -euo pipefail
cd "$(dirname "$0")/.."
tools/x86-64 here || { echo 'bench: nanoseconds under an emulator say nothing; measure on an x86-64 machine'; exit 0; }
[ $# -gt 0 ] || set -- scheduler meter gate stage ingress
mkdir -p target/bench
second='--extern second=target/second/release/libsecond.rlib'

archive() { # CRATE NAME: the words with which rustc links its archive
  tools/build archive "$1" "$2" >/dev/null
  echo "-L target/staticlib -l static=$2"
}

for name in "$@"; do
  case $name in
  ingress) tools/build program ingress && words=$second ;;
  stage) words="$second $(archive transomrib_c transomrib)" ;;
  *) words=$(archive bench_steps bench_steps) ;;
  esac
  # shellcheck disable=SC2086
  rustc --edition 2021 -O "bench/$name.rs" $words -o "target/bench/$name"
  echo "== $name"
  "target/bench/$name"
done
