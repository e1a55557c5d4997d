# Completions of soqavise for bash: source this file. .ci/completions writes it.

# Prints the words of the command line, each without its quotation marks and backslashes, and with the home folder for ~.
_soqavise_plain() {
    local plain=$1
    plain=${plain//[\'\"\\]/}
    printf '%s' "${plain/#\~\//$HOME/}"
}

# Prints the types that may be next, with and without their modules: those of the modules that the command line names, too.
_soqavise_types() {
    local modules=() index word
    for ((index = 2; index < COMP_CWORD; index++)); do
        word=${COMP_WORDS[index]}
        if [[ $word == @(--module|-m) ]]; then
            [[ ${COMP_WORDS[index + 1]} != = ]] || ((index += 1))
            ((index + 1 >= COMP_CWORD)) || modules+=(--module "$(_soqavise_plain "${COMP_WORDS[index + 1]}")")
        elif [[ ${COMP_WORDS[1]} == generate && $word != -* && -f $(_soqavise_plain "$word") ]]; then
            modules+=(--module "$(_soqavise_plain "$word")")
        fi
    done
    {
        ((${#modules[@]} == 0)) || soqavise types "${modules[@]}"
        soqavise types
    } 2> /dev/null | sed 's/:.*//; p; s/^[^.]*[.]//'
}

# Completes the word to one of these.
_soqavise_words() {
    compopt +o default 2> /dev/null
    mapfile -t COMPREPLY < <(compgen -W "$1" -- "$word" | sort -u)
}

# Completes the word to a folder.
_soqavise_folders() {
    compopt +o default -o dirnames 2> /dev/null
}

# Completes a word. Where nothing is offered, it is completed to a file or a folder, as bash does without completions.
_soqavise() {
    local word=${COMP_WORDS[COMP_CWORD]} command=${COMP_WORDS[1]} options='' at=$((COMP_CWORD - 1)) is_after_sign=
    COMPREPLY=()
    # An equals sign is a word of its own: it is after an option, or in the value of one.
    if [[ $word == = ]]; then
        word=
        is_after_sign=yes
    elif [[ ${COMP_WORDS[at]} == = ]]; then
        ((at -= 1))
        is_after_sign=yes
    fi
    if [[ $is_after_sign && ${COMP_WORDS[at]} != -* ]]; then
        ((at -= 1))
        command+=' value of'
    fi
    case $command in
        show) options='-m --module -t --type -l --lines --errors --stream -i --input -r --rules --color --offsets --full --json --html' ;;
        check) options='-m --module -t --type -l --lines --errors --stream -i --input -r --rules --outer' ;;
        lint) options='-m --module -t --type -l --lines --errors --stream -i --input --outer' ;;
        json) options='-m --module -t --type -l --lines --errors --stream -i --input -r --rules --numbers' ;;
        encode) options='-m --module -t --type --example -r --rules -l --lines --errors' ;;
        normalise) options='-m --module -t --type -l --lines --errors --stream -i --input -r --rules --local' ;;
        types) options='-m --module' ;;
        dump) options='-m --module -i --input' ;;
        get) options='-m --module -t --type -l --lines --errors --stream -i --input -r --rules --json' ;;
        table) options='-m --module -t --type -l --lines --errors --stream -i --input -r --rules --csv' ;;
        generate) options='--out --message --also --type --open --from' ;;
    esac
    if ((COMP_CWORD == 1)); then
        _soqavise_words 'show check lint json encode normalise types dump get table generate help -h --help -V --version'
        return
    fi
    case "$command ${COMP_WORDS[at]}" in
        'generate value of --message') _soqavise_words 'ber cer der' ;;
        *' value of '*) ;;
        *' -m' | *' --module' | *' --from') : ;;
        *' -t' | *' --type' | *' --example' | *' --message' | *' --open') _soqavise_words "$(_soqavise_types)" ;;
        *' --errors') _soqavise_words 'text json' ;;
        *' -i' | *' --input') _soqavise_words 'der pem hex base64' ;;
        *' -r' | *' --rules') _soqavise_words 'ber cer der' ;;
        *' --color') _soqavise_words 'auto always never' ;;
        *' --numbers') _soqavise_words 'json text' ;;
        *' --local') _soqavise_words 'utc' ;;
        *' --out') _soqavise_folders ;;
        *' --also') compopt +o default 2> /dev/null ;;
        *)
            if [[ $word == -* ]]; then
                _soqavise_words "$options -h --help"
            elif [[ $command == help ]]; then
                ((COMP_CWORD > 2)) || _soqavise_words 'show check lint json encode normalise types dump get table generate'
            elif [[ $command == @(types) ]]; then
                _soqavise_words "$(_soqavise_types)"
            fi
            ;;
    esac
}
complete -o default -F _soqavise soqavise
