#compdef bier_domain @TOOLS@
# zsh completion of bier_domain and the tools of mastdamson

_bier_domain_routers() {
    local -a routers
    routers=(${(f)"$(sed -n 's/^name *= *"\([^"]*\)".*/\1/p' ${(Q)words[3]} 2>/dev/null)"})
    compadd -a routers
}

_bier_domain() {
    local -a commands
    commands=(
        'replay:a domain over a schedule'
        'replay-ng:the same with a pcapng capture'
        'handshake:a domain whose interfaces follow hellos'
        'check:a domain with questions about coverage'
        'node:one router on a capture'
        'hop:what one router does with a packet'
        'headers:the BIER headers of a capture'
        'topo:the topology in a capture'
        'grow:a domain of any size'
    )
    if ((CURRENT == 2)); then
        _describe command commands
        return
    fi
    case $words[2]:$CURRENT in
        node:4) _bier_domain_routers ;;
        topo:4) compadd 1 2 ;;
        replay:[345]|replay-ng:[345]|handshake:[345]|check:[345]|node:[356]|hop:3|headers:3|topo:3) _files ;;
    esac
}

case $service in
    mastdamson-*) _gnu_generic "$@" ;; # the options that --help lists, and files
    *) _bier_domain "$@" ;;
esac
