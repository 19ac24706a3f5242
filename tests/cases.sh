#!/bin/sh
# Runs the bench, as tools/bench built it, on every script of tests/cases and compares its report, byte for byte, with the one beside it.
# The reports were made by a model that was written from the rules alone.
cd "$(dirname "$0")/.." || exit 1
agree=0
differ=0
for script in tests/cases/*.script; do
    if target/bin/hembayog < "$script" | cmp -s - "${script%.script}.report"; then
        agree=$((agree + 1))
    else
        differ=$((differ + 1))
        echo "differs: $script"
    fi
done
echo "$agree agree, $differ differ"
[ "$differ" -eq 0 ]
