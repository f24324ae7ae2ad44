#!/bin/bash
# Prints how large each crate is, and how much memory the gate takes its proof to need: the gate runs side by side only
# what fits the memory that is free by this estimate.
#
#     bash bench/estimate.sh
#
# A line a crate, in the order of crates.txt: lines of code, functions, lines of specs and proofs, wrong bodies, and the
# estimate in GB (1, and 1 a 1,000 lines of code, 0.2 a 1,000 lines of specs and proofs, 0.08 a 1,000 lines of code in
# crates below), without what the crates of the kit add. A mark stands behind what is larger than this repository wants:
# 1,800 lines of code, 130 functions, 20 wrong bodies.
set -u

cd -- "$(dirname -- "$(readlink -f -- "${BASH_SOURCE[0]}")")/.." || exit 2

# Prints how many lines the files of a folder have together.
lines_of() { # FOLDER PATTERN
    find "$1" -name "$2" -type f -not -path '*/out/*' -exec cat {} + 2>/dev/null | wc -l
}

functions_of() { # CRATE
    find "crates/$1/src" -name '*.rt' -exec cat {} + | grep -cE '^ *(pub(\(crate\))? )?fn '
}

wrong_bodies_of() { # CRATE
    find "crates/$1/must-fail" -name '*.edit' 2>/dev/null | wc -l
}

sed 's/#.*//' crates.txt | while IFS=: read -r name uses; do
    name=${name%% *}
    [[ -n $name ]] || continue
    printf '%s %s %s %s %s %s\n' "$name" "$(lines_of "crates/$name/src" '*.rt')" "$(functions_of "$name")" \
        "$(lines_of "crates/$name" '*.antt')" "$(wrong_bodies_of "$name")" "$uses"
done | awk '
    { name[NR] = $1; code[$1] = $2; functions[$1] = $3; words[$1] = $4; wrong[$1] = $5; uses[$1] = ""
      for (i = 6; i <= NF; i++) uses[$1] = uses[$1] " " $i }
    function below(crate, seen,    many, used, i, sum) {
        sum = 0
        many = split(uses[crate], used, " ")
        for (i = 1; i <= many; i++)
            if (used[i] in code && !(used[i] in seen)) { seen[used[i]] = 1; sum += code[used[i]] + below(used[i], seen) }
        return sum
    }
    END {
        printf "%-16s %6s %9s %7s %6s %5s\n", "crate", "code", "functions", "proofs", "wrong", "GB"
        for (n = 1; n <= NR; n++) {
            crate = name[n]
            delete seen
            gb = 1 + code[crate] / 1000 + words[crate] / 5000 + 0.08 * below(crate, seen) / 1000
            mark = code[crate] > 1800 || functions[crate] > 130 || wrong[crate] > 20 ? " *" : ""
            printf "%-16s %6d %9d %7d %6d %5.1f%s\n", crate, code[crate], functions[crate], words[crate], wrong[crate], gb, mark
        }
    }'
