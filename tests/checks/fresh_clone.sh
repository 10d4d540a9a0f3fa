says="a fresh clone"
needs="git"

check() {
    fresh_clone
}
