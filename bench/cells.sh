#!/usr/bin/env bash
# Times the passes over 1,024 cells in a built program, beside plain loops over floats.
# It works in a folder of its own, outside the gate: bench/cells.sh [RUNS], 40 runs if left out.
# It prints a line for each pass: its name, and the least time of all runs in nanoseconds for each cell.
set -eu
root=$(cd "$(dirname "$0")/.." && pwd)
runs=${1:-40}
work=$(mktemp -d)
trap 'rm -rf "$work"' EXIT
mkdir -p "$work/crates/bench_cells/src"
cp "$root/HANDLES" "$work/"
for crate in mk_scaled mk_enclose mk_cell; do
  mkdir -p "$work/crates/$crate"
  cp -r "$root/crates/$crate/src" "$root/crates/$crate/specs" "$root/crates/$crate/proofs" "$work/crates/$crate/"
done
cp "$root/bench/cells/main.rt.txt" "$work/crates/bench_cells/src/main.rt"
(cd "$root/bench/cells" && find proofs specs -name '*.antt.txt') | while read -r file; do
  mkdir -p "$work/crates/bench_cells/$(dirname "$file")"
  cp "$root/bench/cells/$file" "$work/crates/bench_cells/${file%.txt}"
done
printf 'mk_scaled:\nmk_enclose: mk_scaled\nmk_cell: mk_enclose mk_scaled\nbench_cells: mk_cell mk_enclose mk_scaled\n' >"$work/crates.txt"
(cd "$work/crates/bench_cells" && rt run) >"$work/log" 2>&1 || { cat "$work/log"; exit 1; }
for _ in $(seq "$runs"); do "$work/crates/bench_cells/out/bench_cells"; done |
  awk '{ if (!($1 in least)) order[++count] = $1
         if (!($1 in least) || $2 < least[$1]) least[$1] = $2 }
       END { for (i = 1; i <= count; i++) printf "%s: %.2f ns a cell\n", order[i], least[order[i]] / (20000 * 1024) }'
