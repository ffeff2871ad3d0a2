#!/usr/bin/env bash
# The full check. First `rt ci` proves every crate and its tests from nothing, checks that each mutant is refused, and runs
# tests and programs. Then scripts check the program that it built:
#
# - the cases of gate/cases/ and gate/generated.py, and what terminals show;
# - tasks over raw exports, and imports of mutated ones, compared with scripts that read these files by themselves;
# - the Python client, compared with the command line;
# - answers merged from parts of tables, also by GNU parallel and Dask, compared with answers over whole tables;
# - runs in little memory, and allocations that fail in the program and in test programs.
#
# Last it checks the documents. The last line has the sums of all parts. Each line of a part begins with the minutes since the
# start. gate/times.py makes a table of these lines. If `rt ci` keeps what it proved, --anew makes it prove everything again.
set -uo pipefail
cd "$(dirname "$0")/.."

# Without RT_JOBS, `rt ci` expects two to three times the memory that a proof takes, and so leaves processors idle. The largest
# proofs take 4.5 GiB.
if [[ -z ${RT_JOBS:-} ]]; then
    fit=$(awk '/^MemAvailable:/ { print int($2 / 5000000) }' /proc/meminfo)
    RT_JOBS=$((fit < 1 ? 1 : fit < $(nproc) ? fit : $(nproc)))
    export RT_JOBS
fi

begin=$(date +%s)
echo "full check of $(git rev-parse --short HEAD 2> /dev/null || echo 'no commit') on $(date -u +%F), $(nproc) processors, RT_JOBS=$RT_JOBS"
room=$(mktemp -d)
output=$room/output
trap 'rm -rf "$room"' EXIT
passed=0
failed=0

# Runs a part of the full check: its name and its command. Shows its output, and adds the numbers of its last line.
part() {
    local name=$1
    shift
    "$@" 2>&1 | tee "$output" | gate/stamp.py $$ "$begin"
    local status=${PIPESTATUS[0]}
    if [[ $(tail -n 1 "$output") =~ ^([0-9]+)\ passed,\ ([0-9]+)\ failed$ ]]; then
        passed=$((passed + BASH_REMATCH[1]))
        failed=$((failed + BASH_REMATCH[2]))
        if ((status != 0 && BASH_REMATCH[2] == 0)); then
            echo "FAILED: $name ended with status $status"
            failed=$((failed + 1))
        fi
    else
        echo "FAILED: $name has no last line 'N passed, M failed'"
        failed=$((failed + 1))
    fi
}

# Prints the output of a part that ran before, and returns its exit status.
replay() {
    cat "$1"
    return "$(cat "$1.status")"
}

# The program and the crates below it are a long chain. Without RT_JOBS each of its proofs gets two processors if memory allows,
# with RT_JOBS one. The run of all crates waits for what is proved here, and meanwhile proves tests and checks mutants. An `rt`
# that keeps nothing would prove the chain twice.
anew=()
if python3 gate/build.py --keeps; then
    anew=("$@")
    if (($# == 0 && RT_JOBS >= 4)); then
        python3 gate/build.py --prove tq > /dev/null 2>&1 &
        sleep 3
    fi
fi

sums=$(python3 gate/build.py --sums)
part "rt ci" rt ci "${anew[@]}"
wait
((failed > 0)) || python3 gate/build.py --install <<< "$sums"

# These two check what a terminal shows over time, so nothing else runs with them.
tq=crates/tq/out/tq
part gate/program.py gate/program.py $tq
part gate/screens.py gate/screens.py $tq
checks=(
    "gate/personnel.py $tq"
    "gate/mutated_exports.py $tq"
    "gate/clients.py $tq"
    "gate/parts.py $tq"
    "gate/distributed.py $tq"
    "gate/limits.py $tq"
    "gate/refusals.py $tq crates/tq_tests_faults/out/tq_tests_faults crates/tq_tests_concurrency/out/tq_tests_concurrency"
    "gate/docs.py"
)
for place in "${!checks[@]}"; do
    (
        ${checks[place]} > "$room/$place" 2>&1
        echo $? > "$room/$place.status"
    ) &
done
wait
for place in "${!checks[@]}"; do
    part "${checks[place]%% *}" replay "$room/$place"
done
echo "$passed passed, $failed failed"
((failed == 0))
