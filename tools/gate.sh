#!/usr/bin/env bash
# Runs rt ci, and fails where it fails or where a must-fail edit is bad. The last line is rt ci's own.
set -euo pipefail
cd "$(dirname "$0")/.."
said=$(mktemp)
trap 'rm -f "$said"' EXIT
rt ci 2>&1 | tee "$said"
if grep -E '^rt: ok' "$said" | grep -qE ', [0-9]+ bad'; then
    echo "failed: a must-fail edit is bad, so it shows nothing" >&2
    exit 1
fi
