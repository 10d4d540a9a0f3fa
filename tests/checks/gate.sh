says="what ./prove counts, and what it puts on record"
needs="sha256sum"

# ./prove in a repository whose checks are stand-ins, with one for rt: a gate that passed whole is on record, and one of which
# rt ci or a check failed isn't, whatever was on record before. A check that is run by itself leaves the record as it is.
check() {
    cd "$temp" && mkdir -p gate/tests/checks gate/crates/catsync/{src,specs,proofs,out} gate/bin && cd gate || return 1
    cp "$top/prove" . && cp "$top"/tests/*.sh tests || return 1
    printf '#!/bin/sh\n[ "$*" = ci ] || exit 2\nexit "${CI_ENDS-0}"\n' >bin/rt && chmod +x bin/rt && PATH=$PWD/bin:$PATH
    touch crates.txt && cp "$(type -P true)" crates/catsync/out/catsync
    stand_in one "" true
    stand_in two "" '[ ! -e fails ]'
    stand_in three no_such_tool false
    unset CATSYNC_PROGRAM
    proves 0 "3 passed, 0 failed" yes && CI_ENDS=3 proves 3 "0 passed, 1 failed" no &&
        proves 0 "3 passed, 0 failed" yes && touch fails && proves 0 "1 passed, 0 failed" yes one &&
        proves 1 "1 passed, 1 failed" yes two one && proves 0 "0 passed, 0 failed" yes three &&
        proves 1 "2 passed, 1 failed" no && proves 2 "" no four && proves 2 "" no one --quick
}

# A check by this name that needs this and does that.
stand_in() {
    printf 'says="%s"\nneeds="%s"\n\ncheck() {\n    %s\n}\n' "$1" "$2" "$3" >"tests/checks/$1.sh"
}

# Runs ./prove, and compares its status, its last line, and whether a gate is on record then.
proves() {
    local status=$1 last=$2 is_kept=$3 ended found=no
    shift 3
    ./prove "$@" >said 2>&1
    ended=$?
    rm -rf "$(sed -n 's/^prove: what the failed checks made is in //p' said)"
    tests/made_of.sh 2>/dev/null | cmp -s - crates/catsync/out/made_of && found=yes
    [ "$ended $found" = "$status $is_kept" ] && { [ -z "$last" ] || [ "$(tail -n 1 said)" = "$last" ]; } && return
    echo "prove: ./prove $*: status $ended, on record: $found, and not $status, $is_kept and '$last':"
    cat said
    return 1
}
