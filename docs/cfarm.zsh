#compdef cfarm
# Completions of cfarm's command line for zsh: put it into a folder of $fpath as `_cfarm`.

_cfarm() {
    local -a commands=(
        'check:check a C text' 'interpret:run a C text' 'build:compile a C text by a farm of nodes' 'exec:run a linked program'
        'settle:tell what two nodes agree on' 'sim:play a schedule of the protocol' 'show:show a program or an offer'
        'log:list a journal' 'fsck:look through the journals of a folder' 'verify:check a program by its bundle'
        'emit:write a form of a text' 'judge:judge an offer'
        'native:write a linked program as assembly' 'help:explain a command'
    )
    local -a farm=('--nodes[nodes of the farm]:nodes:(2 3 4 5 6 7)' '--promise[nodes of a promise quorum]:nodes'
        '--accept[nodes of an accept quorum]:nodes' '--dir[folder of the journals]:folder:_files -/')
    if ((CURRENT == 2)); then
        _describe command commands
        _arguments '--help[tell how it is called]' '--version[tell the version]'
        return
    fi
    local command=$words[2]
    shift words
    ((CURRENT--))
    case $command in
    check) _arguments '--format[how a fault is told]:form:(gcc json)' '--help' '*:C text:_files' ;;
    interpret) _arguments '--depth[calls that may be under way, or none]:calls' '--explain[why it went wrong]' '--help' '*:C text:_files' ;;
    build) _arguments $farm '--turns[turns of each node]:turns' '--seed[seed of the draws]:seed' \
        '--optimise[what optimisers choose by]:way:(drawn speed)' '--bundle[file of the bundle]:file:_files' \
        '--offers[folder of offers from outside]:folder:_files -/' '--help' '*:C text:_files' ;;
    fsck) _arguments $farm '--help' '*:C text:_files' ;;
    exec) _arguments '--limit[instructions at most, or none]:instructions' '--expect[the result that it must have]:result' '--explain[why it went wrong]' '--help' '*:program:_files' ;;
    sim) _arguments '--svg[draw it]' '--help' '*:schedule:_files' ;;
    verify) _arguments '--program[file of the linked program]:file:_files' '--bundle[file of the bundle]:file:_files' \
        '--native[file of native code]:file:_files' '--help' '*:C text:_files' ;;
    emit) _arguments '--of[which form]:form:(cminor rtl ltl linear bundle)' '--seed[seed of the draws]:seed' '--help' '*:C text:_files' ;;
    judge) _arguments '--function[name of the function]:name' '--offer[file of the offer]:file:_files' '--help' '*:C text:_files' ;;
    native) _arguments '-o[file of the text]:file:_files' '--export[prefix of exported functions]:prefix' '--header[write their header]' '--help' '*:program:_files' ;;
    help) _values 'about' check interpret build exec settle sim show log fsck verify emit judge native statuses ;;
    *) _arguments '--help' '*:file:_files' ;;
    esac
}

_cfarm "$@"
