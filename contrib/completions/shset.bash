# Completion of shset for bash, made from the program's help by contrib/make-man.
_shset() {
    local word=${COMP_WORDS[COMP_CWORD]} command=${COMP_WORDS[1]-} index operands=0
    if [ "$COMP_CWORD" -eq 1 ]; then
        mapfile -t COMPREPLY < <(compgen -W 'lint cert check print --help --version' -- "$word")
        return
    fi
    for ((index = 2; index < COMP_CWORD; index++)); do
        case ${COMP_WORDS[index]} in
            --args) [ "${COMP_WORDS[++index]-}" != = ] || index=$((index + 1)) ;;
            --*) ;;
            *) operands=$((operands + 1)) ;;
        esac
    done
    case ${COMP_WORDS[COMP_CWORD - 1]} in --args | =) return ;; esac
    case $word in
        -?*)
            local options=
            case $command in
                lint) options='--args --help' ;;
                cert) options='--args --full --help' ;;
                check) options='--args --help' ;;
                print) options='--help' ;;
            esac
            mapfile -t COMPREPLY < <(compgen -W "$options" -- "$word")
            ;;
        *)
            local files=1
            [ "$command" != check ] || files=2
            if [ "$operands" -lt "$files" ]; then
                compopt -o filenames
                mapfile -t COMPREPLY < <(compgen -f -- "$word")
            else
                case $command in lint | cert | check) mapfile -t COMPREPLY < <(compgen -e -- "$word") ;; esac
            fi
            ;;
    esac
}
complete -F _shset shset
