#!/bin/bash
# One table: 262,000 accesses over a cascade of eight targets and over eight targets of one source, 1 GiB copied in the
# background, and a drill; for each the seconds, the peak memory, the calls of disks, and what copying a grain for each of these
# calls takes in the same run. It judges nothing.
#
#     bench/table.sh
cd -- "$(dirname -- "$(readlink -f -- "${BASH_SOURCE[0]}")")" || exit 2
bash cascade.sh
bash advance.sh | tail -n +2
bash drill.sh 5 | tail -n +2
