#!/usr/bin/env bash
# Runs one test of a crate once for each of its allocations, and refuses that one.
# usage: bench/refuse.sh CRATE TEST        needs cc, and the crate's tests built: cd crates/CRATE && rt test
# It prints how often the test ended in which way: well, with the error that it hands on, or by a failed assertion.
set -eu
bench=$(cd "$(dirname "$0")" && pwd)
program=$bench/../crates/$1/out/$1_tests
test=$2
work=$(mktemp -d)
trap 'rm -rf "$work"' EXIT
cc -O2 -shared -fPIC -o "$work/refuse.so" "$bench/refuse.c" -ldl
count=$(COUNT=1 LD_PRELOAD="$work/refuse.so" "$program" "$test" 2>&1 | sed -n 's/^allocations //p')
echo "allocations: $count"
for number in $(seq 1 "$count"); do
  status=0
  REFUSE=$number LD_PRELOAD="$work/refuse.so" "$program" "$test" > "$work/said" 2>&1 || status=$?
  echo "status $status: $(tr '\n' ' ' < "$work/said")"
done | sort | uniq -c
