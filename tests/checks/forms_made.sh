says="docs/HISTORY.md: the forms that are made"
needs="python3"

# The forms in docs/HISTORY.md, by all outputs of walks that are compared above.
check() {
    python3 tests/forms_made.py docs/HISTORY.md crates/catsync/stdout examples/*.output tests/runs/*.output
}
