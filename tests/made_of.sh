#!/usr/bin/env bash
# Prints the checksums of the proved executable and of all files that it is made of, as sha256sum has them. ./prove keeps them
# beside the executable once rt ci has passed, and ./catsync --version compares.
set -eu -o pipefail

cd "$(dirname "${BASH_SOURCE[0]}")/.."
{
    printf '%s\0' crates/catsync/out/catsync crates.txt
    find crates/*/src crates/*/specs crates/*/proofs -type f -print0 2>/dev/null | LC_ALL=C sort -z
} | xargs -0 sha256sum
