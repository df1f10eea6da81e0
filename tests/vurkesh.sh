#!/usr/bin/env bash
# Runs ./vurkesh on each sample, and compares what it prints with the file beside it.
set -u
cd "$(dirname "$0")/.." || exit 1
failed=0
for expected in samples/*.table.expected; do
    sample=${expected%.expected}
    if ! ./vurkesh table < "$sample" | cmp -s - "$expected"; then
        echo "tests/vurkesh.sh: $sample does not print what $expected has"
        failed=1
    fi
done
exit "$failed"
