#!/usr/bin/env bash
# Times the built program on a million cheap lines, and on the largest table that it serves.
#   bench/lines.sh [RUNS] [OTHER]     5 runs if left out; OTHER is a program with the same words and commands, run in turn with ours
# It prints a line for each program and workload: the least user time and the least time in the kernel of all runs, in
# microseconds for each line of commands. A run whose count of replies is not that of its commands is an error.
set -eu
root=$(cd "$(dirname "$0")/.." && pwd)
runs=${1:-5}
other=${2:-}
work=$(mktemp -d)
trap 'rm -rf "$work"' EXIT
"$root/bin/daggre" >/dev/null || true

variable() { printf '\n[[variable]]\nname = "%s"\nvalues = ["heads", "tails"]\nparents = []\nrows = [[500000, 500000]]\n' "$1"; }
{
  printf 'points_per_bit = 100\nmax_trades = 1000\ncliques = [["coin"]]\nlinks = []\n'
  variable coin
} >"$work/coin.toml"
yes 'price coin=heads' | head -n 1000000 >"$work/coin.commands" || true
names=(a b c d e f g h i j k l)
{
  printf 'points_per_bit = 100\nmax_trades = 1000\ncliques = [[%s]]\nlinks = []\n' "$(printf '"%s", ' "${names[@]}" | sed 's/, $//')"
  for name in "${names[@]}"; do variable "$name"; done
} >"$work/table.toml"
yes 'price a=heads | l=tails' | head -n 2000 >"$work/table.commands" || true

# one run: user and kernel seconds behind its name
once() {
  local name=$1 program=$2 load=$3 lines replies
  lines=$(wc -l <"$work/$load.commands")
  TIMEFORMAT='%U %S'
  { time "$program" run "$work/$load.toml" <"$work/$load.commands" >"$work/out"; } 2>"$work/times"
  replies=$(wc -l <"$work/out")
  if [ "$replies" -ne $((lines + 1)) ]; then
    echo "bench/lines.sh: $name answered $replies lines of $load, not $((lines + 1))" >&2
    exit 1
  fi
  echo "$name $load $lines $(cat "$work/times")" >>"$work/all"
}

for _ in $(seq "$runs"); do
  for load in coin table; do
    once daggre "$root/crates/daggre/out/daggre" "$load"
    if [ -n "$other" ]; then once other "$other" "$load"; fi
  done
done
awk '{ key = $1 " " $2; lines[key] = $3
       if (!(key in user) || $4 < user[key]) user[key] = $4
       if (!(key in kernel) || $5 < kernel[key]) kernel[key] = $5 }
     END { for (key in user) printf "%s: user %.2f, kernel %.2f microseconds a line\n", key, user[key] * 1e6 / lines[key], kernel[key] * 1e6 / lines[key] }' \
  "$work/all" | sort
