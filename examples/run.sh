#!/bin/sh
# Runs the proved programs on each example, and compares what they print. Build them first: make examples
# A sheet (.sheet) is planned by tiemsker_sheet, which prints its .plan, and ends with status 1 where that is a refusal. A journal is replayed by journal:
# one with an .out prints that and ends well; one with a .fault says that on standard error, prints nothing and ends with status 1.
cd "$(dirname "$0")/.." || exit 2
journal=crates/journal/out/journal
tiemsker=crates/tiemsker_sheet/out/tiemsker_sheet
[ -x "$journal" ] && [ -x "$tiemsker" ] || { echo "not built: run make examples" >&2; exit 2; }
said=$(mktemp -d) || exit 2
trap 'rm -rf "$said"' EXIT
tried=0
failed=0
for example in examples/*.sheet; do
    plan=${example%.sheet}.plan
    expected=0
    if grep -q '^refused' "$plan"; then
        expected=1
    fi
    "$tiemsker" <"$example" >"$said/out" 2>"$said/fault"
    status=$?
    tried=$((tried + 1))
    if [ $status -ne $expected ] || ! diff "$plan" "$said/out" >&2 || [ -s "$said/fault" ]; then
        echo "$example: status $status" >&2
        failed=$((failed + 1))
    fi
done
for example in examples/*.journal; do
    name=${example%.journal}
    : >"$said/expected.out"
    : >"$said/expected.fault"
    expected=0
    if [ -e "$name.fault" ]; then
        cp "$name.fault" "$said/expected.fault"
        expected=1
    else
        cp "$name.out" "$said/expected.out"
    fi
    "$journal" <"$example" >"$said/out" 2>"$said/fault"
    status=$?
    tried=$((tried + 1))
    if [ $status -ne $expected ] || ! diff "$said/expected.out" "$said/out" >&2 || ! diff "$said/expected.fault" "$said/fault" >&2; then
        echo "$example: status $status" >&2
        failed=$((failed + 1))
    fi
done
echo "examples: $tried tried, $failed failed"
[ $failed -eq 0 ]
