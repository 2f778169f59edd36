#!/usr/bin/env bash
# Measures a part of ours beside a program that does the same, three passes in one run:
#     bench/beside.sh exact_set    beside Rust's HashSet; hundredths of a nanosecond
#     bench/beside.sh cache        beside a map and a list in Rust; nanoseconds
#     bench/beside.sh scheme       beside plain C and OpenSSL; hundredths of a nanosecond, and a byte that all must come to
# Needs the Rattle kit, and rustc or, for the last, gcc and OpenSSL's headers (version 3).
set -euo pipefail
cd "$(dirname "$0")/.."
mkdir -p target
case "${1-}" in
exact_set) ours=filter_bench && rustc -O -o target/other bench/filters.rs ;;
cache) ours=cache_bench && rustc -O -o target/other bench/cache.rs ;;
scheme) ours=ccm_bench && gcc -O3 -o target/other bench/ccm.c -lcrypto ;;
*) sed -n '3,5s/^#     //p' "$0" >&2 && exit 2 ;;
esac
(cd "crates/$ours" && rt run) >"target/$ours.log" 2>&1 || {
    cat "target/$ours.log"
    exit 1
}
for _ in 1 2 3; do
    echo "ours"
    "crates/$ours/out/$ours" run
    echo "beside it"
    target/other
done
