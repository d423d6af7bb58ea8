#compdef riegeli
# Completion of riegeli's words for zsh: a function for a folder of `fpath`, under the name _riegeli.

local commands='write show verify seek repair sample join ranges append collect'
local own_words='--help --version --install --uninstall --explain --progress --whole'
local options='' added=1
local -a given left

if (( CURRENT > 2 )); then
    case $words[2] in
        --explain | --progress | --whole)
            shift words
            (( CURRENT-- ))
            own_words=''
            ;;
        --install | --uninstall)
            (( CURRENT == 3 )) && _files -/
            return
            ;;
        --help | --version) return 1 ;;
    esac
fi
if (( CURRENT == 2 )); then
    compadd -- ${=commands} ${=own_words}
    return
fi

case $words[2] in
    write) options='--chunk= --every= --workers= --pad= --hex' ;;
    show) options='--recover --most= --hex --positions' ;;
    verify) options='' ;;
    seek) options='--at= --key= --hex' ;;
    repair) options='--most=' ;;
    sample) options='--seed= --records= --chunk= --workers=' ;;
    join) options='' ;;
    ranges) options='--parts=' ;;
    append) options='--chunk= --every= --workers= --pad= --hex --cut' ;;
    collect) options='' ;;
esac

case $PREFIX in
    --pad=*)
        compset -P '--pad='
        compadd -- start end both
        ;;
    -*)
        given=("${(@)words[3,CURRENT-1]%%=*}" "${(@)words[CURRENT+1,-1]%%=*}")
        given+=("${(@)^given}=")
        left=(${=options})
        left=(${left:|given})
        compadd -S '' -- ${(M)left:#*=} && added=0
        compadd -- ${left:#*=} && added=0
        return added
        ;;
    *) _files ;;
esac
