#!/usr/bin/env bash
# what-if-array.sh SCENARIO PARTS FOLDER [OPTION..]: tries the variants of a scenario in so many parts, each a task of a Slurm array, and tells the whole.
#
# FOLDER is one that each node sees. A part has a file there once it is whole, as part.3, so a second call tries only parts that are missing or cut.
# Behind it stand FOLDER/answer and FOLDER/answer.json, the octets of one call, whose status is that of this script. LTE_SEC names the launcher.
set -e
[ $# -ge 3 ] || { echo "usage: $0 SCENARIO PARTS FOLDER [OPTION..]" >&2; exit 2; }
scenario=$(realpath "$1")
parts=$2
mkdir -p "$3"
folder=$(realpath "$3")
shift 3
lte_sec=${LTE_SEC:-lte_sec}

# is_whole FILE: its last line is that of a whole document
is_whole() { [ "$(tail -n 1 "$1" 2>/dev/null)" = "}" ]; }

files=() missing=()
for ((part = 1; part <= parts; part++)); do
    files+=("$folder/part.$part")
    is_whole "$folder/part.$part" || missing+=("$part")
done

if [ ${#missing[@]} != 0 ]; then
    tasks=$(IFS=, && echo "${missing[*]}")
    echo "what-if-array: parts to try: $tasks" >&2
    # Status 1 is an answer, and no failure of the task.
    task="$(printf '%q ' "$lte_sec" what-if "$@" "$scenario") --part \$SLURM_ARRAY_TASK_ID/$parts --out $(printf '%q' "$folder/part").\$SLURM_ARRAY_TASK_ID || [ \$? = 1 ]"
    sbatch --quiet --wait --array="$tasks" --cpus-per-task=1 --export=ALL --output="$folder/said.%a" --wrap "$task" >&2 || {
        echo "what-if-array: a part failed: see $folder/said.*; the same call goes on" >&2
        exit 1
    }
fi

"$lte_sec" what-if --merge --json "${files[@]}" >"$folder/answer.json" || [ $? = 1 ]
"$lte_sec" what-if --merge "${files[@]}" >"$folder/answer"
