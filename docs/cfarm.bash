# Completions of cfarm's command line for bash: `source docs/cfarm.bash`, or put it into bash-completion's folder as `cfarm`.

# What a command takes beside its file.
_cfarm_options() {
    case $1 in
    check) echo "--format --help" ;;
    interpret) echo "--depth --explain --help" ;;
    build) echo "--nodes --promise --accept --turns --seed --optimise --dir --bundle --offers --help" ;;
    fsck) echo "--nodes --promise --accept --dir --help" ;;
    exec) echo "--limit --expect --explain --help" ;;
    sim) echo "--svg --help" ;;
    verify) echo "--program --bundle --native --help" ;;
    emit) echo "--of --seed --help" ;;
    judge) echo "--function --offer --help" ;;
    native) echo "-o --export --header --help" ;;
    settle | show | log) echo "--help" ;;
    *) echo "--help --version" ;;
    esac
}

# The words of an option that takes one of some; nothing where it takes a number, which is typed.
_cfarm_values() {
    case $1 in
    --format) echo "gcc json" ;;
    --nodes) echo "2 3 4 5 6 7" ;;
    --optimise) echo "drawn speed" ;;
    --of) echo "cminor rtl ltl linear bundle" ;;
    esac
}

_cfarm() {
    local word=${COMP_WORDS[COMP_CWORD]} before=${COMP_WORDS[COMP_CWORD - 1]}
    local commands="check interpret build exec settle sim show log fsck verify emit judge native help"
    local command=
    [ "$COMP_CWORD" -gt 1 ] && command=${COMP_WORDS[1]}
    COMPREPLY=()
    if [ -z "$command" ]; then
        COMPREPLY=($(compgen -W "$commands $(_cfarm_options)" -- "$word"))
        return
    fi
    if [ "$command" = help ]; then
        [ "$COMP_CWORD" -eq 2 ] && COMPREPLY=($(compgen -W "$commands statuses" -- "$word"))
        return
    fi
    # bash cuts `--nodes=3` into three words
    [ "$word" = "=" ] && word=
    [ "$before" = "=" ] && before=${COMP_WORDS[COMP_CWORD - 2]}
    case $before in
    --dir | --offers) COMPREPLY=($(compgen -d -- "$word")) ;;
    --program | --bundle | --native | --offer | -o) COMPREPLY=($(compgen -f -- "$word")) ;;
    --depth | --limit) COMPREPLY=($(compgen -W none -- "$word")) ;;
    --expect | --promise | --accept | --turns | --seed | --function | --export) ;;
    --format | --nodes | --optimise | --of) COMPREPLY=($(compgen -W "$(_cfarm_values "$before")" -- "$word")) ;;
    *)
        case $word in
        -*) COMPREPLY=($(compgen -W "$(_cfarm_options "$command")" -- "$word")) ;;
        *) COMPREPLY=($(compgen -f -- "$word")) ;;
        esac
        ;;
    esac
}

complete -o filenames -F _cfarm cfarm ./cfarm
