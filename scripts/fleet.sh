#!/usr/bin/env bash
# Builds an image for each of many seeds from two texts, runs each, and keeps what came of it in one table.
set -euo pipefail

usage() {
    cat <<'TEXT'
usage: fleet.sh TOPO TEMPLATE FOLDER [options]           runs seeds on this machine, or on hosts by ssh
       fleet.sh --slurm TOPO TEMPLATE FOLDER [options]   prints the text of a Slurm array job that does
       fleet.sh --one FOLDER SEED                        runs one seed, as both of these do
       fleet.sh --table FOLDER                           writes the table of what is done, and sums it up

  --seeds A-B          from A to B (1-1000)
  --threadmill PATH    the program (crates/threadmill/out/threadmill)
  --run COMMAND        how an image is run: {} stands for its file. It ends with 0 where nothing is reported and with
                       1 where something is; all else is a failure (scripts/run_on_qemu.py {})
  --seconds N          how long a run may take (300)
  --jobs N             how many at once, on each host (as many as it has processors)
  --hosts H,H          hosts that ssh reaches; : is this machine. FOLDER, the program and this script have to be there
                       under the same paths, as on a shared file system
  --each N             how many seeds a task of the array job runs (10)
  --resume             goes on in a FOLDER: seeds that were ok or reported aren't run again

In FOLDER: table.tsv has a line for each seed, with how many verdicts weren't 0, and the first of them, or else the
log's last line; failed/ keeps the image and the log of each seed that wasn't ok.
Results are ok, reported, failed (nothing could be told), late (no end in time) and unbuilt. Needs GNU parallel
(Debian: parallel), but for --one and --slurm. It isn't part of the gate.

It ends with status 0 where all seeds are ok, with 1 where some was reported, and with 2 for all else.
TEXT
}

die() {
    echo "fleet.sh: $*" >&2
    exit 2
}

self=$(realpath "${BASH_SOURCE[0]}")
here=$(dirname "$self")

# One seed: its image is built and run, and a line is written to results/. Seeds that are done aren't run again.
one() {
    local folder=$1 seed=$2 image log result begun status reported line
    [ -e "$folder/settings" ] || die "$folder is no folder of a fleet"
    grep -qsE $'\t(ok|reported)\t' "$folder/results/$seed" && return 0
    # shellcheck disable=SC1091
    . "$folder/settings"
    image=$folder/work/$seed.elf log=$folder/work/$seed.log begun=$(date +%s)
    if "$program" build "$folder/topology.toml" "$folder/template.tm" "$image" --seed "$seed" > "$log" 2>&1; then
        status=0
        timeout "$seconds" bash -c "${command//\{\}/$(printf %q "$image")}" >> "$log" 2>&1 < /dev/null || status=$?
        case $status in 0) result=ok ;; 1) result=reported ;; 124) result=late ;; *) result=failed ;; esac
    else
        result=unbuilt
    fi
    reported=$(grep -cE '^case .*: hart ' "$log" || true)
    line=$(grep -m 1 -E '^case .*: hart ' "$log" || tail -n 1 "$log")
    [ "$result" != ok ] || line=''
    rm -f "$folder/failed/$seed".{elf,log}
    if [ "$result" = ok ]; then
        rm -f "$image" "$log"
    else
        for kept in "$image" "$log"; do [ ! -e "$kept" ] || mv "$kept" "$folder/failed/"; done
    fi
    printf '%s\t%s\t%s\t%s\t' "$seed" "$result" "$(($(date +%s) - begun))" "$(hostname)" > "$folder/work/$seed.line"
    printf '%s\t%s\n' "$reported" "${line//$'\t'/ }" >> "$folder/work/$seed.line"
    mv "$folder/work/$seed.line" "$folder/results/$seed"
}

# The table, its sum, and the status.
table() {
    local folder=$1 seed count results open=0
    [ -e "$folder/settings" ] || die "$folder is no folder of a fleet"
    # shellcheck disable=SC1091
    . "$folder/settings"
    printf 'seed\tresult\tseconds\thost\tverdicts\tline\n' > "$folder/table.tsv"
    find "$folder/results" -type f -exec cat {} + | sort -n >> "$folder/table.tsv"
    for ((seed = first; seed <= last; seed++)); do
        [ -e "$folder/results/$seed" ] || open=$((open + 1))
    done
    count=$(tail -n +2 "$folder/table.tsv" | wc -l)
    results=$(tail -n +2 "$folder/table.tsv" | cut -f 2 | sort | uniq -c | awk '{ printf ", %s %s", $1, $2 }')
    [ "$open" -eq 0 ] || results+=", $open not run"
    echo "$count seeds$results"
    [[ ! $results =~ failed|late|unbuilt|run ]] || return 2
    [[ ! $results =~ reported ]] || return 1
}

# The folder, with the texts and what was asked for.
prepare() {
    local settings
    [ -r "$topology" ] || die "$topology can't be read"
    [ -r "$template" ] || die "$template can't be read"
    command -v "$program" > /dev/null || die "there is no program $program: name it with --threadmill PATH"
    [[ $range =~ ^([0-9]+)-([0-9]+)$ ]] || die "--seeds wants A-B, as 1-1000"
    first=$((10#${BASH_REMATCH[1]})) last=$((10#${BASH_REMATCH[2]}))
    [ "$first" -le "$last" ] || die "--seeds wants A-B with A at most B"
    if [ -e "$folder/settings" ]; then
        [ -n "$resume" ] || die "$folder has results: --resume goes on with them"
        cmp -s "$topology" "$folder/topology.toml" || die "$folder has results of another topology"
        cmp -s "$template" "$folder/template.tm" || die "$folder has results of another template"
    fi
    mkdir -p "$folder"/{results,failed,work}
    folder=$(realpath "$folder")
    cmp -s "$topology" "$folder/topology.toml" || cp "$topology" "$folder/topology.toml"
    cmp -s "$template" "$folder/template.tm" || cp "$template" "$folder/template.tm"
    program=$(realpath "$(command -v "$program")")
    settings=$(declare -p program command seconds first last)
    echo "${settings//declare --/}" > "$folder/settings"
}

# The seeds that have no result, or one that is neither ok nor reported.
open_seeds() {
    local seed
    for ((seed = first; seed <= last; seed++)); do
        grep -qsE $'\t(ok|reported)\t' "$folder/results/$seed" || echo "$seed"
    done
}

run_all() {
    local options=(--will-cite -q)
    command -v parallel > /dev/null || die "there is no parallel (Debian: parallel)"
    [ -z "$jobs" ] || options+=(--jobs "$jobs")
    [ -z "$hosts" ] || options+=(--sshlogin "$hosts")
    if [ -t 2 ]; then options+=(--bar); fi
    open_seeds | parallel "${options[@]}" "$self" --one "$folder" {} || true
    table "$folder"
}

slurm_text() {
    local tasks=$(((last - first + each) / each)) harts
    harts=$(awk -F '[=#]' '/^ *(cores|threads) *=/ { n = (n ? n : 1) * $2 } END { print n ? n : 8 }' \
        "$folder/topology.toml")
    cat <<TEXT
#!/bin/bash
#SBATCH --job-name=threadmill
#SBATCH --array=0-$((tasks - 1))
#SBATCH --cpus-per-task=$harts
#SBATCH --output="$folder/work/task_%a.out"
# When all tasks are done: $(printf %q "$self") --table $(printf %q "$folder")
begin=\$(($first + SLURM_ARRAY_TASK_ID * $each))
for ((seed = begin; seed < begin + $each && seed <= $last; seed++)); do
    $(printf %q "$self") --one $(printf %q "$folder") "\$seed"
done
TEXT
}

need() {
    [ "$2" -ge 2 ] || die "$1 wants a value"
}

# A number from 1 on behind an option.
need_number() {
    need "$1" "$2"
    [[ $3 =~ ^[1-9][0-9]*$ ]] || die "$1 wants a number from 1 on"
}

program=$here/../crates/threadmill/out/threadmill
command="$(printf %q "$here/run_on_qemu.py") {}"
range=1-1000 seconds=300 jobs='' hosts='' each=10 resume='' is_slurm='' names=()
while [ $# -gt 0 ]; do
    case $1 in
        --help | -h) usage; exit 0 ;;
        --one) [ $# -eq 3 ] || die "--one wants FOLDER SEED"; one "$(realpath "$2")" "$3"; exit 0 ;;
        --table) [ $# -eq 2 ] || die "--table wants FOLDER"; table "$2"; exit ;;
        --slurm) is_slurm=1; shift ;;
        --resume) resume=1; shift ;;
        --seeds) need "$1" $#; range=$2; shift 2 ;;
        --threadmill) need "$1" $#; program=$2; shift 2 ;;
        --run) need "$1" $#; command=$2; shift 2 ;;
        --seconds) need_number "$1" $# "${2:-}"; seconds=$2; shift 2 ;;
        --jobs) need_number "$1" $# "${2:-}"; jobs=$2; shift 2 ;;
        --hosts) need "$1" $#; hosts=$2; shift 2 ;;
        --each) need_number "$1" $# "${2:-}"; each=$2; shift 2 ;;
        -*) die "$1 isn't an option: --help tells them" ;;
        *) names+=("$1"); shift ;;
    esac
done
[ ${#names[@]} -eq 3 ] || { usage >&2; exit 2; }
topology=${names[0]} template=${names[1]} folder=${names[2]}
prepare
if [ -n "$is_slurm" ]; then slurm_text; else run_all; fi
