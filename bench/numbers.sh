#!/usr/bin/env bash
# Times the operations on enclosures in a built program, beside a plain product of two u64 in u128.
# It works in a folder of its own, outside the gate: bench/numbers.sh [RUNS], 40 runs if left out.
set -eu
root=$(cd "$(dirname "$0")/.." && pwd)
runs=${1:-40}
work=$(mktemp -d)
trap 'rm -rf "$work"' EXIT
mkdir -p "$work/crates/bench_numbers/src"
cp "$root/HANDLES" "$work/"
for crate in mk_scaled mk_enclose; do
  mkdir -p "$work/crates/$crate"
  cp -r "$root/crates/$crate/src" "$root/crates/$crate/specs" "$root/crates/$crate/proofs" "$work/crates/$crate/"
done
cp "$root/bench/numbers/main.rt.txt" "$work/crates/bench_numbers/src/main.rt"
(cd "$root/bench/numbers" && find proofs -name '*.antt.txt') | while read -r file; do
  mkdir -p "$work/crates/bench_numbers/$(dirname "$file")"
  cp "$root/bench/numbers/$file" "$work/crates/bench_numbers/${file%.txt}"
done
printf 'mk_scaled:\nmk_enclose: mk_scaled\nbench_numbers: mk_enclose mk_scaled\n' >"$work/crates.txt"
(cd "$work/crates/bench_numbers" && rt run) >"$work/log" 2>&1 || { cat "$work/log"; exit 1; }
for _ in $(seq "$runs"); do "$work/crates/bench_numbers/out/bench_numbers"; done |
  awk '{ if (!($1 in least) || $2 < least[$1]) least[$1] = $2 }
       END { turns = 2000000
             printf "two plain products and their factors: %.1f ns\n", least["plain"] / turns
             printf "mul: %.1f ns\n", (least["products"] - least["base"]) / turns
             printf "add: %.1f ns\n", (least["sums"] - least["base"]) / turns
             printf "min: %.1f ns\n", (least["minima"] - least["base"]) / turns }'
