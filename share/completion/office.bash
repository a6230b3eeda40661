# Completion of office(1) for bash: commands, options, operators, files.
# shellcheck shell=bash

# _office_words WORDS: those of some words, separated by white, that begin with the current one.
_office_words() {
    local word
    for word in $1; do
        [[ $word == "$2"* ]] && COMPREPLY+=("$word")
    done
}

# _office_options OPTION..: the options that aren't given yet, and help where none is.
_office_options() {
    local option word given left=
    for option; do
        given=
        for word in "${COMP_WORDS[@]:2:COMP_CWORD-2}"; do
            [[ $word == "$option" ]] && given=yes
        done
        [[ $given ]] || left+="$option "
    done
    ((COMP_CWORD == 2)) && left+='--help '
    printf '%s' "$left"
}

_office() {
    local current=${COMP_WORDS[COMP_CWORD]} option=${COMP_WORDS[COMP_CWORD - 1]} command=${COMP_WORDS[1]}
    COMPREPLY=()
    # `--conf=F` comes as the three words `--conf`, `=` and `F`.
    if [[ $current == = ]]; then
        current=
    elif [[ $option == = ]]; then
        option=${COMP_WORDS[COMP_CWORD - 2]}
    fi
    case $option in
        --conf | --db)
            compopt -o filenames 2> /dev/null
            mapfile -t COMPREPLY < <(compgen -f -- "$current")
            return
            ;;
        --port | --connections | --host | --run | --day) return ;;
    esac
    if ((COMP_CWORD == 1)); then
        _office_words 'compare replay serve waiting report runs why try propose breaks hints order lint mail export check' \
            "$current"
        _office_words '--help --version' "$current"
        return
    fi
    case $command in
        compare)
            case $COMP_CWORD in
                2) _office_words '--help' "$current" ;;
                3) _office_words 'lt le eq ge gt' "$current" ;;
            esac
            ;;
        replay | waiting) _office_words "$(_office_options --conf --db)" "$current" ;;
        report)
            case $COMP_CWORD in
                2) _office_words 'testing unstable' "$current" ;;
                3) [[ ${COMP_WORDS[2]} == [0-9]* ]] && _office_words 'excuses update' "$current" ;;
            esac
            _office_words "$(_office_options --conf --db)" "$current"
            ;;
        runs | hints | export | check) _office_words "$(_office_options --conf --db)" "$current" ;;
        why) _office_words "$(_office_options --conf --db --run --hint)" "$current" ;;
        breaks) _office_words "$(_office_options --conf --db --run)" "$current" ;;
        try | propose) _office_words "$(_office_options --conf --db --day --all)" "$current" ;;
        order) _office_words "$(_office_options --day --conf --db)" "$current" ;;
        lint) _office_words "$(_office_options --conf)" "$current" ;;
        mail) _office_words "$(_office_options --conf --db --list)" "$current" ;;
        serve) _office_words "$(_office_options --conf --port --db --connections --host)" "$current" ;;
    esac
}

complete -F _office office
