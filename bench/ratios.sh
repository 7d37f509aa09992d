#!/usr/bin/env bash
# Times the built program on the workloads of an unverified engine, beside it and in turn with it.
#   bench/ratios.sh FOLDER [RUNS]     FOLDER has that engine, built, and its `bench.py`; 7 runs of each workload if left out
# It prints what `bench.py` prints: for each workload both programs' times, and the ratios of ours to the other's.
set -eu
root=$(cd "$(dirname "$0")/.." && pwd)
folder=${1:-}
if [ ! -f "$folder/bench.py" ]; then
  echo "bench/ratios.sh: no bench.py there: name the folder of the engine to measure beside" >&2
  exit 2
fi
"$root/bin/daggre" >/dev/null || true
cd "$folder"
exec python3 bench.py "$root/crates/daggre/out/daggre" -n "${2:-7}"
