#compdef acpidis
# Completion of acpidis for zsh, which ./install puts where zsh finds it. The help of the command says which options there are,
# and what they take.
local line
local -a known match mbegin mend
for line in ${(f)"$(_call_program options $words[1] --help 2>/dev/null)"}; do
    [[ $line =~ '^ +(-[A-Za-z], )?(--[a-z-]+)( <([A-Z]+)>)?( +(.*))?$' ]] || continue
    case $match[4] in
    N) known+=("$match[2][${match[6]//[][:\\]/}]:number:(1 2 4 8 16 32 64)") ;;
    FILE) known+=("$match[2][${match[6]//[][:\\]/}]:file:_files") ;;
    *) known+=("$match[2][${match[6]//[][:\\]/}]") ;;
    esac
done
_arguments $known '*:folder:_directories'
