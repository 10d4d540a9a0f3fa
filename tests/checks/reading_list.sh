says="docs/DEFINITIONS.md: what must be read"
needs="python3"

# The list is right, and a module of it that imports proofs is refused.
check() {
    python3 tests/reading_list.py && proofs_refused
}

# In a copy a module imports proofs in place of specs.
proofs_refused() {
    local module=crates/backend_core/specs/Agrees.antt
    cp -r --parents crates/*/specs crates/catsync_top/src docs/DEFINITIONS.md tests/reading_list.py "$temp" || return 1
    sed -i "s/^use Rattle.cacheless.specs.Lines/use Rattle.cacheless.proofs.Lines/" "$temp/$module"
    python3 "$temp/tests/reading_list.py" >"$temp/said" && return 1
    grep -qxF "$module imports Rattle.cacheless.proofs.Lines, but a reader has the specs alone" "$temp/said"
}
