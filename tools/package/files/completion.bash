# bash completion of bier_domain and the tools of mastdamson

# the names of the routers of a domain file
_bier_domain_routers() {
    sed -n 's/^name *= *"\([^"]*\)".*/\1/p' "$1" 2>/dev/null
}

_bier_domain() {
    local cur=${COMP_WORDS[COMP_CWORD]} command=${COMP_WORDS[1]}
    COMPREPLY=()
    if ((COMP_CWORD == 1)); then
        mapfile -t COMPREPLY < <(compgen -W "replay replay-ng handshake check node hop headers topo grow" -- "$cur")
        return
    fi
    case $command:$COMP_CWORD in
    node:3) mapfile -t COMPREPLY < <(compgen -W "$(_bier_domain_routers "${COMP_WORDS[2]}")" -- "$cur") ;;
    topo:3) mapfile -t COMPREPLY < <(compgen -W "1 2" -- "$cur") ;;
    replay:[2-4] | replay-ng:[2-4] | handshake:[2-4] | check:[2-4] | node:[245] | hop:2 | headers:2 | topo:2)
        compopt -o filenames
        mapfile -t COMPREPLY < <(compgen -f -- "$cur")
        ;;
    esac
}

complete -F _bier_domain bier_domain
complete -F _longopt @TOOLS@ # the options that --help lists, and files
