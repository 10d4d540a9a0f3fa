# Completion of catsync and its tools in bash: . tools/completion.bash

_catsync_options() {
    case ${1##*/} in
    catsync) echo walk run check make --help --version ;;
    schedule) echo --program --help ;;
    explore)
        echo --most --random --seed --find --interleaved --places --picture --html --replay --jobs --part --out --merge --program --help
        ;;
    expect) echo --most --jobs --passed --program --help ;;
    picture) echo --html --script --brief --width --from --to --help ;;
    server) echo --programs --program --help ;;
    spec) echo --explore --most --jobs --program --help ;;
    replay) echo --times --all --brief --trace --sweep --programs --program --help ;;
    esac
}

# Completes options; and the names of folders or files, but where an option takes a number or a text.
_catsync() {
    local current=${COMP_WORDS[COMP_CWORD]}
    COMPREPLY=()
    case ${COMP_WORDS[COMP_CWORD - 1]} in
    --most | --random | --seed | --find | --jobs | --part | --width | --from | --to | --times | --sweep)
        compopt +o default 2>/dev/null
        ;;
    --picture | --programs)
        mapfile -t COMPREPLY < <(compgen -d -- "$current")
        ;;
    check)
        mapfile -t COMPREPLY < <(compgen -W "walk run" -- "$current")
        ;;
    *)
        if [[ $current == -* || ( ${1##*/} == catsync && $COMP_CWORD -eq 1 ) ]]; then
            mapfile -t COMPREPLY < <(compgen -W "$(_catsync_options "$1")" -- "$current")
        fi
        ;;
    esac
}

complete -o default -F _catsync catsync {,./}tools/{schedule,explore,expect,picture,server,spec,replay}
