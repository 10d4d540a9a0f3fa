says="what ./catsync says of its executable"
needs="sha256sum"

# What ./catsync says, in a repository that has one source, of an executable: whether the gate built it is on record, or isn't, or is
# of other sources; and of one that is older than its source.
check() {
    cd "$temp" && mkdir -p version/tests version/crates/catsync/{src,specs,proofs,out} && cd version || return 1
    cp "$top/catsync" . && cp "$top/tests/made_of.sh" tests || return 1
    touch -d @1000 crates.txt crates/catsync/src/main.rt
    cp "$(type -P true)" crates/catsync/out/catsync
    runs "crates/catsync/out/catsync, which is newer than all sources; that the gate built it isn't on record" &&
        tests/made_of.sh >crates/catsync/out/made_of &&
        runs "crates/catsync/out/catsync, which the gate built of these sources" &&
        echo "fn main() {}" >crates/catsync/src/main.rt && touch -d @1000 crates/catsync/src/main.rt &&
        runs "crates/catsync/out/catsync, which is newer than all sources; that the gate built it isn't on record" &&
        touch -d @1000 crates/catsync/out/catsync && touch crates/catsync/src/main.rt &&
        runs "the program built without proof, as no executable is up to date; the first run builds it"
}

# Whether ./catsync says that it runs this.
runs() {
    local said
    said=$(./catsync --version)
    [ "${said#* runs }" = "$1" ] && return
    echo "prove: ./catsync --version: '$said', and not '$1'"
    return 1
}
