# Completes the words of gsm in bash 4 and later: a command, then its keys, and file names behind the keys that name files.
# Made by tools/word_pages of the tables of docs/FORMATS.md: change those.
# To use it: `. completions/gsm.bash`, there or in ~/.bashrc; or copy it to ~/.local/share/bash-completion/completions/gsm.

# Puts the keys of a command, and those of them that name files, into the caller's `keys` and `files`.
_gsm_keys() {
    case $1 in
        solve) keys='stages tables arcs horizon ranges cert' files='stages tables arcs cert' ;;
        session) keys='stages tables arcs horizon script ranges cert' files='stages tables arcs script cert' ;;
        audit) keys='stages tables arcs horizon plan' files='stages tables arcs plan' ;;
        check) keys='stages tables arcs horizon cert' files='stages tables arcs cert' ;;
        explain) keys='stages tables arcs horizon cert' files='stages tables arcs cert' ;;
        clusters) keys='stages tables arcs horizon' files='stages tables arcs' ;;
        trial) keys='seed stages extra horizon ranges' files='' ;;
        *) keys= files= ;;
    esac
}

# Offers the keys that stand nowhere else on the line.
_gsm_offer_keys() {
    local given=' ' key k
    for ((k = 2; k < ${#COMP_WORDS[@]}; k++)); do
        if ((k != COMP_CWORD)) && [[ ${COMP_WORDS[k]} == ?*=* || ${COMP_WORDS[k + 1]-} == =* ]]; then
            given+="${COMP_WORDS[k]%%=*} "
        fi
    done
    for key in $keys; do
        if [[ $given != *" $key "* && $key= == "$1"* ]]; then
            COMPREPLY+=("$key=")
        fi
    done
    compopt -o nospace
}

# Offers files behind a key that names one, and nothing behind others. PREFIX stands before each.
_gsm_offer_files() {
    local key=$1 value=$2 prefix=$3
    if [[ " $files " == *" $key "* ]]; then
        mapfile -t COMPREPLY < <(compgen -P "$prefix" -f -- "$value")
        if [[ $prefix ]]; then
            compopt -o nospace
        else
            # By default readline looks for names too, where none was found: behind a quote there are some.
            compopt -o filenames -o default
        fi
    fi
}

# Bash parts words at `=`, so that `arcs=a` is three of them, unless COMP_WORDBREAKS has no `=`.
_gsm() {
    local keys files word=${COMP_WORDS[COMP_CWORD]} before=${COMP_WORDS[COMP_CWORD - 1]}
    COMPREPLY=()
    _gsm_keys "${COMP_WORDS[1]}"
    if ((COMP_CWORD == 1)); then
        mapfile -t COMPREPLY < <(compgen -W 'solve session audit check explain clusters trial' -- "$word")
    elif [[ $word == = ]]; then
        _gsm_offer_files "$before" '' ''
    elif [[ $before == = ]]; then
        _gsm_offer_files "${COMP_WORDS[COMP_CWORD - 2]}" "$word" ''
    elif [[ $word == *=* ]]; then
        _gsm_offer_files "${word%%=*}" "${word#*=}" "${word%%=*}="
    else
        _gsm_offer_keys "$word"
    fi
}

complete -F _gsm gsm
