#!/bin/bash
# Refuses one allocation after the other in the sessions of the module `memory` of `session_tests`: the first of each, the second
# of each, and so on until none of them wants so many.
#
#     bash docs/refused_memory.sh [FIRST [STEP [LAST]]]
#
# The numbers go from FIRST (1) by STEP (1), at most to LAST. A line is printed for each number after which a session didn't
# come out as it should, and in the end a summary. Each number takes a build of the tests, without proofs: ten seconds or
# more. The status is 1 where a session came out wrong, and 2 where the tests couldn't be tried.
set -u

cd -- "$(dirname -- "$(readlink -f -- "${BASH_SOURCE[0]}")")/../crates/session_tests" || exit 2

first=${1:-1}
step=${2:-1}
last=${3:-100000}

# How many lines of what was said are like this.
count() { grep -c -- "$1" <<<"$said"; }

tried=0
wrong=0
unready=0
stopped=0
unsettled=0
settled=0
unwritten=0
ended=

for ((number = first; number <= last; number += step)); do
    said=$(rt try --test --fail-alloc "$number" -- memory:: 2>&1)
    if ! grep -q '^test result: ' <<<"$said"; then
        printf '%d: the tests could not be tried\n%s\n' "$number" "$said"
        exit 2
    fi
    tried=$((tried + 1))
    while IFS= read -r line; do
        printf '%d: %s\n' "$number" "$line"
        wrong=$((wrong + 1))
    done < <(grep '^test memory::refused::.* FAILED$' <<<"$said")
    refused=$(count '^test memory::ample::.* FAILED$')
    if ((refused == 0)); then
        ended=yes
        break
    fi
    unready=$((unready + $(count 'Error: AllocError')))
    unwritten=$((unwritten + $(count 'assertion failed: outcome.status != Status::WriteFault')))
    stopped=$((stopped + $(count 'assertion failed: outcome.status != Status::NoMemory')))
    settled=$((settled + $(count 'assertion failed: outcome.settled == 0')))
    unsettled=$((unsettled + $(count 'assertion failed: outcome.written.as_slice() == session.text')))
done

printf '%d numbers were tried, and %d sessions came out wrong\n' "$tried" "$wrong"
printf 'refused while a session was made ready: %d\n' "$unready"
printf 'refused, and the session ended with NoMemory: %d\n' "$stopped"
printf 'refused, and an entry answered no memory: %d, after its settling: %d\n' "$((unsettled + settled))" "$settled"
printf 'refused to the sink that keeps the text in memory: %d\n' "$unwritten"
if [[ $ended ]]; then
    printf 'no session wants %d allocations\n' "$number"
fi
((wrong == 0)) || exit 1
