# Completions of csicodec for bash, written by tools/completions.
_csicodec() {
    local word=${COMP_WORDS[COMP_CWORD]} before=${COMP_WORDS[COMP_CWORD-1]} equals= task= of= it
    # An option and its value are three words where = is between them.
    [ "$word" != = ] || { word= equals=1; }
    [ "$before" != = ] || { before=${COMP_WORDS[COMP_CWORD-2]} equals=1; }
    for it in "${COMP_WORDS[@]:1:COMP_CWORD-1}"; do
        case $it in filter|compact|strip|clean|check|html|screen|explain|assemble|cuts|normalise|help) task=$it; break ;; esac
    done
    COMPREPLY=()
    case $task$before in
        *--at) COMPREPLY=(); return ;;
        *--check) if [ "$equals" ]; then COMPREPLY=($(compgen -W "visible" -- "$word")); return; fi ;;
        explain--color) COMPREPLY=($(compgen -W "always never auto" -- "$word")); return ;;
        *--colors) COMPREPLY=($(compgen -W "256 16" -- "$word")); return ;;
        *--every) COMPREPLY=(); return ;;
        *--grep) COMPREPLY=(); return ;;
        *--only) COMPREPLY=(); return ;;
        *--output) COMPREPLY=($(compgen -f -- "$word")); return ;;
        *--palette) COMPREPLY=(); return ;;
        *--size) COMPREPLY=(); return ;;
        *--style) COMPREPLY=($(compgen -f -- "$word")); return ;;
        *--timing) COMPREPLY=($(compgen -f -- "$word")); return ;;
        *--title) COMPREPLY=(); return ;;
    esac
    case $task in
        filter) of="--faithful --output --text --help" ;;
        compact) of="--output --semicolons --text --help" ;;
        strip) of="--check --check=visible --all --lines --log --output --overwrite --text --visible --help" ;;
        clean) of="--check --check=visible --colors --lines --links --log --output --overwrite --text --visible --help" ;;
        check) of="--all --output --visible --help" ;;
        html) of="--classes --fragment --ids --links --no-overwrite --output --overwrite --palette --style --title --visible --help" ;;
        screen) of="--color --output --raw --scrollback --size --help" ;;
        explain) of="--at --color --count --decode --diff --full --grep --ignore-case --input --json --only --output --quiet --stats --timing --unknown --utf8-mouse --help" ;;
        assemble) of="--output --help" ;;
        cuts) of="--every --output --help" ;;
        normalise) of="--output --help" ;;
        help) COMPREPLY=($(compgen -W "filter compact strip clean check html screen explain assemble cuts normalise" -- "$word")); return ;;
        *) of="filter compact strip clean check html screen explain assemble cuts normalise help --help --version" ;;
    esac
    if [ ! "$task" ] || [ "${word#-}" != "$word" ]; then COMPREPLY=($(compgen -W "$of" -- "$word")); fi
}
complete -o bashdefault -o default -F _csicodec csicodec
