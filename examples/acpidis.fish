# Completion of acpidis for fish, which ./install puts where fish finds it. The help of the command says which options there are,
# and what they take.
complete -c acpidis -f -a '(__fish_complete_directories)'
for line in (acpidis --help 2>/dev/null)
    set -l form '^ +(?:-[A-Za-z], )?--([a-z-]+)(?: <([A-Z]+)>)?(?: +(.*))?$'
    set -l found (string replace -rf -- $form '$1\t$2\t$3' $line | string split \t)
    switch "$found[2]"
        case N
            complete -c acpidis -l $found[1] -d "$found[3]" -x -a '1 2 4 8 16 32 64'
        case FILE
            complete -c acpidis -l $found[1] -d "$found[3]" -r -F
        case '*'
            test -n "$found[1]"; and complete -c acpidis -l $found[1] -d "$found[3]"
    end
end
