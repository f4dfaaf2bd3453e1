# Completes the words of psi in bash: the command, and then a file where a word names one.
# In a checkout: `source completion/psi.bash`, for `./psi` and for `psi`.

# The words of each command: f is a file, and - is a word that nothing is offered for.
_psi_words() {
    case $1 in
    deal) echo - - - f f ;;
    local) echo f f - - - f ;;
    send) echo - f f ;;
    receive) echo - f f f ;;
    audit) echo f f f f f ;;
    twin) echo f f f f f f ;;
    make) echo - - - f f ;;
    trial) echo - - - ;;
    renew) echo f f ;;
    esac
}

_psi() {
    local before word kinds
    # The shell splits an address at its colon, so the words are read from the line itself.
    read -ra before <<<"${COMP_LINE:0:COMP_POINT}"
    word=
    if [[ ${COMP_LINE:0:COMP_POINT} != *[[:space:]] ]]; then
        word=${before[-1]}
        unset 'before[-1]'
    fi
    COMPREPLY=()
    if ((${#before[@]} == 1)); then
        mapfile -t COMPREPLY < <(compgen -W 'deal local send receive audit twin make trial renew --help --version' \
            -- "$word")
        return
    fi
    read -ra kinds <<<"$(_psi_words "${before[1]}")"
    if [[ ${kinds[${#before[@]} - 2]:-} == f ]]; then
        compopt -o filenames 2>/dev/null
        mapfile -t COMPREPLY < <(compgen -f -- "$word")
    fi
}
complete -F _psi psi ./psi
