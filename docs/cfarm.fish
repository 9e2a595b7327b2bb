# Completions of cfarm's command line for fish: put it into fish's folder of completions.

function __cfarm_lacks_command
    not __fish_seen_subcommand_from check interpret build exec settle sim show log fsck verify emit judge native help
end

complete -c cfarm -n __cfarm_lacks_command -f
complete -c cfarm -n __cfarm_lacks_command -l help -d 'tell how it is called'
complete -c cfarm -n __cfarm_lacks_command -l version -d 'tell the version'
for line in 'check:check a C text' 'interpret:run a C text' 'build:compile a C text by a farm of nodes' 'exec:run a linked program' \
        'settle:tell what two nodes agree on' 'sim:play a schedule of the protocol' 'show:show a program or an offer' 'log:list a journal' \
        'fsck:look through the journals of a folder' 'verify:check a program by its bundle' 'emit:write a form of a text' \
        'judge:judge an offer' 'native:write a linked program as assembly' 'help:explain a command'
    set -l parts (string split -m 1 : $line)
    complete -c cfarm -n __cfarm_lacks_command -a $parts[1] -d $parts[2]
end

complete -c cfarm -n '__fish_seen_subcommand_from check' -l format -x -a 'gcc json' -d 'how a fault is told'
complete -c cfarm -n '__fish_seen_subcommand_from interpret' -l depth -x -a none -d 'calls that may be under way, or none'
complete -c cfarm -n '__fish_seen_subcommand_from interpret' -l explain -d 'why it went wrong'
complete -c cfarm -n '__fish_seen_subcommand_from build fsck' -l nodes -x -a '2 3 4 5 6 7' -d 'nodes of the farm'
complete -c cfarm -n '__fish_seen_subcommand_from build fsck' -l promise -x -d 'nodes of a promise quorum'
complete -c cfarm -n '__fish_seen_subcommand_from build fsck' -l accept -x -d 'nodes of an accept quorum'
complete -c cfarm -n '__fish_seen_subcommand_from build fsck' -l dir -x -a '(__fish_complete_directories)' -d 'folder of the journals'
complete -c cfarm -n '__fish_seen_subcommand_from build' -l turns -x -d 'turns of each node'
complete -c cfarm -n '__fish_seen_subcommand_from build' -l seed -x -d 'seed of the draws'
complete -c cfarm -n '__fish_seen_subcommand_from build' -l optimise -x -a 'drawn speed' -d 'what optimisers choose by'
complete -c cfarm -n '__fish_seen_subcommand_from build verify' -l bundle -r -d 'file of the bundle'
complete -c cfarm -n '__fish_seen_subcommand_from build' -l offers -x -a '(__fish_complete_directories)' -d 'folder of offers from outside'
complete -c cfarm -n '__fish_seen_subcommand_from exec' -l limit -x -a none -d 'instructions at most, or none'
complete -c cfarm -n '__fish_seen_subcommand_from exec' -l expect -x -d 'the result that it must have'
complete -c cfarm -n '__fish_seen_subcommand_from exec' -l explain -d 'why it went wrong'
complete -c cfarm -n '__fish_seen_subcommand_from sim' -l svg -d 'draw it'
complete -c cfarm -n '__fish_seen_subcommand_from verify' -l program -r -d 'file of the linked program'
complete -c cfarm -n '__fish_seen_subcommand_from verify' -l native -r -d 'file of native code'
complete -c cfarm -n '__fish_seen_subcommand_from emit' -l of -x -a 'cminor rtl ltl linear bundle' -d 'which form'
complete -c cfarm -n '__fish_seen_subcommand_from emit' -l seed -x -d 'seed of the draws'
complete -c cfarm -n '__fish_seen_subcommand_from judge' -l function -x -d 'name of the function'
complete -c cfarm -n '__fish_seen_subcommand_from judge' -l offer -r -d 'file of the offer'
complete -c cfarm -n '__fish_seen_subcommand_from native' -s o -r -d 'file of the text'
complete -c cfarm -n '__fish_seen_subcommand_from native' -l export -x -d 'prefix of exported functions'
complete -c cfarm -n '__fish_seen_subcommand_from native' -l header -d 'write their header'
complete -c cfarm -n '__fish_seen_subcommand_from help' -f -a 'check interpret build exec settle sim show log fsck verify emit judge native statuses'
