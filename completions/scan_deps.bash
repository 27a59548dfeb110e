# Completion of scan_deps for bash: source this file, or put it into the folder of bash-completion as scan_deps.

_scan_deps() {
    local word=${COMP_WORDS[COMP_CWORD]} before=${COMP_WORDS[COMP_CWORD - 1]} option value
    COMPREPLY=()
    # bash cuts words at = and :, so an option's value may stand behind a word =.
    if [[ $word == = ]]; then
        option=$before value=
    elif [[ $before == = ]]; then
        option=${COMP_WORDS[COMP_CWORD - 2]} value=$word
    else
        option=$before value=$word
    fi
    case $option in
        --compilation-database)
            mapfile -t COMPREPLY < <(compgen -f -X '!*.json' -- "$value"; compgen -d -- "$value")
            compopt -o filenames
            ;;
        --predefines)
            mapfile -t COMPREPLY < <(compgen -f -- "$value")
            compopt -o filenames
            ;;
        --system-dirs)
            mapfile -t COMPREPLY < <(compgen -d -- "$value")
            compopt -o filenames
            ;;
        --format) mapfile -t COMPREPLY < <(compgen -W p1689 -- "$value") ;;
        --made) mapfile -t COMPREPLY < <(compgen -W '1 64 1000 4096' -- "$value") ;;
        -j) mapfile -t COMPREPLY < <(compgen -W '1 2 4 8 16 32 64' -- "$value") ;;
        *)
            mapfile -t COMPREPLY < <(compgen -W '--compilation-database= --format= -j --made= --predefines= --schedule= --system-dirs=' -- "$word")
            [[ ${COMPREPLY[0]-} != *= ]] || compopt -o nospace
            ;;
    esac
} 2>/dev/null

complete -F _scan_deps scan_deps ./scan_deps
