#!/bin/sh
# Tells in a minute what the gate would refuse only when it comes to a crate: files that `rt fmt` lays out otherwise. The last
# line counts crates.
cd "$(dirname "$0")/.." || exit 1
passed=0
failed=0
for crate in crates/*/; do
    if (cd "$crate" && find . \( -name '*.rt' -o -name '*.antt' \) -not -path './out/*' -exec rattle fmt --check {} +); then
        passed=$((passed + 1))
    else
        echo "$crate: run rt fmt there"
        failed=$((failed + 1))
    fi
done
echo "$passed passed, $failed failed"
[ "$failed" -eq 0 ]
