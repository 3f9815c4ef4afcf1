# Completion of t1edit for bash; made by tools/completions.
_t1edit() {
    local word=${COMP_WORDS[COMP_CWORD]} before=${COMP_WORDS[COMP_CWORD - 1]} words=""
    COMPREPLY=()
    if [[ $COMP_CWORD -eq 1 ]]; then
        mapfile -t COMPREPLY < <(compgen -W "assemble disassemble measure check faults notes session explain help -h --help -V --version" -- "$word")
        return
    fi
    case "${COMP_WORDS[1]}" in
        assemble)
            case "$before" in
                -o|--output) mapfile -t COMPREPLY < <(compgen -f -- "$word"); return ;;
                -l|--block) return ;;
            esac
            [[ $word == -* ]] && words="-l --block -a --pfa --font -o --output -h --help"
            [[ $word != -* ]] && mapfile -t COMPREPLY < <(compgen -f -- "$word") && return
            ;;
        disassemble)
            case "$before" in
                -o|--output) mapfile -t COMPREPLY < <(compgen -f -- "$word"); return ;;
            esac
            [[ $word == -* ]] && words="-o --output -h --help"
            [[ $word != -* ]] && mapfile -t COMPREPLY < <(compgen -f -- "$word") && return
            ;;
        measure)
            case "$before" in
                --kern|-o|--output) mapfile -t COMPREPLY < <(compgen -f -- "$word"); return ;;
            esac
            [[ $word == -* ]] && words="--kern --font -o --output -h --help"
            [[ $word != -* ]] && mapfile -t COMPREPLY < <(compgen -f -- "$word") && return
            ;;
        check)
            case "$before" in
                --kern) mapfile -t COMPREPLY < <(compgen -f -- "$word"); return ;;
            esac
            [[ $word == -* ]] && words="--kern --font -h --help"
            [[ $word != -* ]] && mapfile -t COMPREPLY < <(compgen -f -- "$word") && return
            ;;
        faults)
            case "$before" in
                --kern) mapfile -t COMPREPLY < <(compgen -f -- "$word"); return ;;
            esac
            [[ $word == -* ]] && words="--json --kern --font -h --help"
            [[ $word != -* ]] && mapfile -t COMPREPLY < <(compgen -f -- "$word") && return
            ;;
        notes)
            case "$before" in
                --kern) mapfile -t COMPREPLY < <(compgen -f -- "$word"); return ;;
            esac
            [[ $word == -* ]] && words="--strict --kern --font -h --help"
            [[ $word != -* ]] && mapfile -t COMPREPLY < <(compgen -f -- "$word") && return
            ;;
        session)
            case "$before" in
                --kern) mapfile -t COMPREPLY < <(compgen -f -- "$word"); return ;;
            esac
            [[ $word == -* ]] && words="--kern --font -h --help"
            [[ $word != -* ]] && mapfile -t COMPREPLY < <(compgen -f -- "$word") && return
            ;;
        explain)
            [[ $COMP_CWORD -eq 2 ]] && words="F1 F2 F3 F4 F5 F6 F7 F8 F9 F10 F11 F12 F13 F20 F21 F22 F23 F30 F31 F32 F33 F34 F35 F36 F37 F38 F39 F40 F41 F42 F43 F44 F45 F46 F47 F48 D1 D2 D3 D4 D5 D6 D7 D8 D9 D10 D11 D12 D13 D14 D15 D16 D17 byte-order-mark first-line encoded-name count plain-entry no-notdef no-entry after-end values-left wide-coordinate negative-width open-path no-such-glyph unused-subr font-box wide-glyph E1 E2 E3 E4 E5 E6 E7 E8 E9 E10 E11 E12 0 1 2 3 4"
            [[ $word == -* ]] && words="-h --help"
            ;;
        help)
            [[ $COMP_CWORD -eq 2 ]] && words="assemble disassemble measure check faults notes session explain help"
            ;;
    esac
    mapfile -t COMPREPLY < <(compgen -W "$words" -- "$word")
}
complete -o filenames -F _t1edit t1edit
