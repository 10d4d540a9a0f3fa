# rt ci, as a run of ./prove wants it. ./prove reads it.

copy=$temp/copy

# The gate in this mode.
run_ci() {
    case $mode in
    all) rt ci ;;
    quick) copy_crates && ci_on_copy ;;
    edits) copy_crates && copy_edits && ci_on_copy ;;
    esac
}

# What it is called.
name_of_ci() {
    case $mode in
    all) echo "rt ci" ;;
    quick) echo "rt ci without the must-fail edits" ;;
    edits) echo "rt ci with all must-fail edits" ;;
    esac
}

# A copy of the crates without their edits.
copy_crates() {
    local name
    mkdir -p "$copy/crates" || return 1
    touch "$temp/copied"
    cp crates.txt HANDLES "$copy" || return 1
    for name in crates/*; do
        mkdir "$copy/$name" && (cd "$name" && find . -maxdepth 1 -mindepth 1 ! -name out ! -name must-fail -exec cp -r {} "$copy/$name" \;) || return 1
    done
}

# All edits for such a copy: those of the gate, and those of tests/edits.
copy_edits() {
    local edit name
    for edit in crates/*/must-fail/*.edit tests/edits/*/*.edit; do
        name=${edit#crates/}
        name=${name#tests/edits/}
        mkdir -p "$copy/crates/${name%%/*}/must-fail" && cp "$edit" "$copy/crates/${name%%/*}/must-fail" || return 1
    done
}

# rt ci on such a copy. Its executables come here, dated as the copy, so that ./catsync takes its own as long as nothing
# has changed since.
ci_on_copy() {
    mkdir -p "${program%/*}" "${layers%/*}" && (cd "$copy" && rt ci) || return
    cp "$copy/${program#"$top/"}" "$program" && cp "$copy/${layers#"$top/"}" "$layers" &&
        touch -r "$temp/copied" "$program" "$layers" && rm -rf "$copy"
}
