# Completion of riegeli's words for bash 4 or later. Where it is installed the package bash-completion finds it; without that
# package it is read by `source`.

# Offers those of the words that begin as the current one does, and no space behind an option that takes a value.
_riegeli_offer() {
    mapfile -t COMPREPLY < <(compgen -P "${3-}" -W "$1" -- "$2")
    [[ ${COMPREPLY[0]-} != *= ]] || compopt -o nospace
}

_riegeli() {
    local commands='write show verify seek repair sample join ranges append collect'
    local own_words='--help --version --install --uninstall --explain --progress --whole'
    local IFS=$' \t\n' current=${COMP_WORDS[COMP_CWORD]} previous=${COMP_WORDS[COMP_CWORD - 1]}
    local first=1 options='' option='' others left=() front=''
    COMPREPLY=()

    if ((COMP_CWORD > 1)); then
        case ${COMP_WORDS[1]} in
            --explain | --progress | --whole) first=2 own_words='' ;;
            --install | --uninstall)
                ((COMP_CWORD > 2)) || compopt -o dirnames
                return
                ;;
            --help | --version) return ;;
        esac
    fi
    if ((COMP_CWORD == first)); then
        _riegeli_offer "$commands $own_words" "$current"
        return
    fi

    case ${COMP_WORDS[first]} in
        write) options='--chunk= --every= --workers= --pad= --hex' ;;
        show) options='--recover --most= --hex --positions' ;;
        verify) options='' ;;
        seek) options='--at= --key= --hex' ;;
        repair) options='--most=' ;;
        sample) options='--seed= --records= --chunk= --workers=' ;;
        join) options='' ;;
        ranges) options='--parts=' ;;
        append) options='--chunk= --every= --workers= --pad= --hex --cut' ;;
        collect) options='' ;;
    esac

    # The option whose value is at the cursor. `--pad=start` comes as three words, unless COMP_WORDBREAKS has no `=`.
    if [[ $current == = ]]; then
        option=$previous current=''
    elif [[ $previous == = && -n $current ]]; then
        option=${COMP_WORDS[COMP_CWORD - 2]}
    elif [[ $current == --*=* ]]; then
        option=${current%%=*} current=${current#*=} front=$option=
    fi

    case $option,$current in
        --pad,*) _riegeli_offer 'start end both' "$current" "$front" ;;
        --*,*) ;;
        *,-*)
            others=" ${COMP_WORDS[*]:first:COMP_CWORD - first} ${COMP_WORDS[*]:COMP_CWORD + 1} "
            for option in $options; do
                [[ $others == *" ${option%=}"[\ =]* ]] || left+=("$option")
            done
            _riegeli_offer "${left[*]}" "$current"
            ;;
        *) compopt -o default ;;
    esac
}

complete -F _riegeli riegeli
