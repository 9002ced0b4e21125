#!/usr/bin/env bash
# Refuses each allocation of calls and sessions in turn, each read, each write and each thread, and prints a table of how the
# runs ended (faults.py); then looks under load (load.py).
# usage: bench/faults.sh OUT      needs the kit, cc and python3; OUT is a folder outside of the repository, and keeps what is built
set -eu
bench=$(cd "$(dirname "$0")" && pwd)
mkdir -p "$1"
out=$(cd "$1" && pwd)
crate=$out/tree/crates/bench_faults
if [ ! -x "$out/driver/program" ]; then
  mkdir -p "$out/tree"
  tar cf - -C "$bench/.." --exclude=out --exclude=.git . | tar xf - -C "$out/tree"
  mkdir -p "$crate/src"
  cp "$bench/faults.rt.txt" "$crate/src/main.rt"
  touch "$crate/args" "$crate/stdin" "$crate/stdout"
  uses="pregeld pg_checkpoint pg_publish pg_service pg_import pg_inbox pg_part pregeld_programs pg_global pg_program pg_model pg_graph"
  echo "bench_faults may_wait=40: $uses" >> "$out/tree/crates.txt"
  python3 "$out/tree/bench/unproved.py" "$out/driver" bench_faults
fi
[ -x "$out/pregeld/program" ] || python3 "$bench/unproved.py" "$out/pregeld"
cc -O2 -shared -fPIC -o "$out/refuse.so" "$bench/refuse.c" -ldl
status=0
python3 "$bench/faults.py" "$out/driver/program" "$out/pregeld/program" "$out/refuse.so" || status=1
python3 "$bench/load.py" "$out/driver/program" || status=1
exit $status
