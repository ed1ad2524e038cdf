# Completions of joistdenim for bash, from version 4 on: what 'joistdenim --completions bash' prints.

# Of these words those that begin as the one at the cursor.
_joistdenim_words() {
    mapfile -t COMPREPLY < <(compgen -W "$*" -- "$word")
}

_joistdenim_files() {
    compopt -o filenames 2>/dev/null
    mapfile -t COMPREPLY < <(compgen -f -- "${word#=}")
}

# How many arguments that are no options stand before the cursor. Bash takes the = of --output=FILE
# for a word.
_joistdenim_place() {
    local i
    place=0
    for ((i = 2; i < COMP_CWORD; i++)); do
        case ${COMP_WORDS[i]} in
        -o | --output)
            [ "${COMP_WORDS[i + 1]}" = = ] && i=$((i + 1))
            i=$((i + 1))
            ;;
        -?*) ;;
        *) place=$((place + 1)) ;;
        esac
    done
}

# What may stand at the cursor: a word of those given, a FILE, or a KEY, of which nothing is known.
_joistdenim() {
    local word=${COMP_WORDS[COMP_CWORD]} before=${COMP_WORDS[COMP_CWORD - 1]}
    local commands='list table show cut insert join check bucket'
    local options='' operands=() more='' place
    COMPREPLY=()
    if [ "$COMP_CWORD" -eq 1 ]; then
        _joistdenim_words "$commands" --help --version --man --completions
        return
    fi
    case ${COMP_WORDS[1]} in
    help | -h | --help) operands=("$commands") ;;
    --completions) operands=('bash zsh fish') ;;
    list)
        options='--short --text -o --output --help'
        operands=(FILE)
        ;;
    table)
        options='-o --output --help'
        operands=(FILE)
        ;;
    show)
        options='--text --tsv --help'
        operands=(FILE KEY) more=KEY
        ;;
    cut)
        options='--text -o --output --help'
        operands=('left right' FILE KEY)
        ;;
    insert)
        options='--text -o --output --help'
        operands=(FILE KEY)
        ;;
    join)
        options='-o --output --help'
        operands=(FILE FILE)
        ;;
    check)
        options='-o --output --help'
        operands=(FILE) more=FILE
        ;;
    bucket)
        options='--text --bytes --report -o --output --help'
        operands=('translate' KEY KEY FILE)
        ;;
    esac
    if [[ $before == -o || $before == --output || $before == '=' ]]; then
        [[ $options == *--output* ]] && _joistdenim_files
        return
    fi
    _joistdenim_place
    case $word in
    -*) _joistdenim_words "$options" ;;
    *)
        case ${operands[place]-$more} in
        FILE) _joistdenim_files ;;
        KEY) ;;
        *) _joistdenim_words "${operands[place]-$more}" ;;
        esac
        ;;
    esac
}

complete -F _joistdenim joistdenim
