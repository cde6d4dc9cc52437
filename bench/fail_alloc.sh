#!/usr/bin/env bash
# Makes the first, the second, .. allocation of a run fail, up to the first run in which none does.
# Each run has to end with 71 and no bytes, or as the last one.
set -eu
cd "$(dirname "$0")/../crates/groovy_cli"
script=${1:-../../examples/sums.groovy}
for ((n = 1; n <= 1000; n++)); do
  status=0
  said=$(rt try --fail-alloc "$n" --data "a.groovy=$script" -- a.groovy 2>&1) || status=$?
  case $status in
    71) grep -q '^[^:=]*$' <<<"$said" && { echo "allocation $n: bytes were written"; exit 1; } ;;
    0) echo "no allocation fails from $n on; each one before it gave 71 and no bytes"; exit 0 ;;
    *) echo "allocation $n: status $status"; echo "$said"; exit 1 ;;
  esac
done
