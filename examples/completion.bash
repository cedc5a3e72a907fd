# Completion of the command lines of svcmgr and of svcmgr-doorkeeper for bash: source this file.
_svcmgr() {
    local word="${COMP_WORDS[COMP_CWORD]}" before="${COMP_WORDS[COMP_CWORD - 1]}" command="${COMP_WORDS[1]:-}"
    local options="" words=""
    case "$command" in
        run) options="--journal --help" ;;
        check) options="--all --show --help" ;;
        serve) options="--journal --seal-at --seal-bytes --workers --mode --audit --audit-rate --take-wait --status --socket --admin --help" ;;
        label) options="--help" ;;
        explain) options="--name --help" ;;
        access) options="--source --target --name --class --perm --help" ;;
        rules) options="--kind --source --target --name --class --perm --help" ;;
        types) options="--of --help" ;;
        names) options="--source --perm --help" ;;
        suggest) options="--help" ;;
        unused) options="--help" ;;
        diff) options="--rules --help" ;;
        admin) options="--admin --help" ;;
        status) options="--status --help" ;;
    esac
    # The words for this place, if files don't fit.
    case "$COMP_CWORD $command $before" in
        "1 "*) words="run check serve label explain access rules types names suggest unused diff admin status --help --version" ;;
        *" rules --kind") words="allow neverallow dontaudit" ;;
        *" access --class" | *" rules --class") words="service_manager binder" ;;
        *" access --perm" | *" rules --perm") words="add find list impersonate call set_context_mgr transfer" ;;
        *" names --perm") words="add find list" ;;
        "2 admin admin") words="version denials seal reload explain" ;;
        "4 admin "*) [ "${COMP_WORDS[2]}" = --admin ] && words="version denials seal reload explain" ;;
    esac
    if [[ "$COMP_CWORD" -gt 1 && "$word" == -* ]]; then
        words="$options"
    fi
    if [ -n "$words" ]; then
        mapfile -t COMPREPLY < <(compgen -W "$words" -- "$word")
    else
        mapfile -t COMPREPLY < <(compgen -f -- "$word")
    fi
}
complete -o filenames -F _svcmgr svcmgr

_svcmgr_doorkeeper() {
    local word="${COMP_WORDS[COMP_CWORD]}" options
    case "${COMP_WORDS[COMP_CWORD - 1]}" in
        --socket | --server | --contexts) mapfile -t COMPREPLY < <(compgen -f -- "$word") ;;
        --mode | --seats) COMPREPLY=() ;;
        *)
            options="--socket --server --contexts --mode --seats --relay --help"
            mapfile -t COMPREPLY < <(compgen -W "$options" -- "$word")
            ;;
    esac
}
complete -o filenames -F _svcmgr_doorkeeper svcmgr-doorkeeper
