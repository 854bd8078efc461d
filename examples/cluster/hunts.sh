#!/bin/sh
# hunts.sh CORPUS RESULTS [OPTION ..]: hunts in each driver set below a folder, by GNU parallel.
#
# RESULTS gets a file for each hunt, and `log`, GNU parallel's list of them: run it again, and only
# what isn't listed there is hunted. Each OPTION goes to GNU parallel, as `--jobs 8`, or
# `--sshloginfile HOSTS` for many machines, which have the corpus at the same path.
#
# DRVHOST is the program, THREADS and PACKETS are the bounds that are tried, STATES how many worlds
# each hunt keeps. The exit status is 1 where a run was found that ends amiss.
set -eu
corpus=$1 results=$2
shift 2
mkdir -p "$results"
find "$corpus" -type f \( -name '*.drv' -o -name '*.image' \) | sort > "$results/sets"
parallel --joblog "$results/log" --resume --results "$results/{#}/" "$@" \
    "${DRVHOST:-drvhost} hunt {1} --threads {2} --packets {3} --states ${STATES:-1000000}" \
    :::: "$results/sets" ::: ${THREADS:-1 2} ::: ${PACKETS:-1 2} > "$results/answers" || true
# In the log the seventh column is the exit status of a hunt, and from the ninth on stands its command.
awk -F '\t' 'NR > 1 && $7 > 0 { print ($7 == 1 ? "found: " : "failed: ") $9; bad = 1 } END { exit bad }' \
    "$results/log"
