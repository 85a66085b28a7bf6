# Words of hwal and of the tools beside it, completed by bash: `source completions/hwal.bash`.
# Numbers of logs and regions are those of the store in the working directory.

# The numbers in the names of this store's files that match: _hwal_numbers 's/^log-\([0-9]*\)$/\1/p'
_hwal_numbers() {
    command ls -1 "${HWAL_DIR:-.}/hwal-store" 2>/dev/null | sed -n "$1" | sort -nu
}

_hwal() {
    local word=${COMP_WORDS[COMP_CWORD]} command=${COMP_WORDS[1]} words=
    if [ "$COMP_CWORD" -eq 1 ]; then
        words='log show dump ship recover compact run load groups --help --build'
    else
        case "$command:$COMP_CWORD" in
            dump:2 | ship:2) words=$(_hwal_numbers 's/^\(log\|old\)-\([0-9]*\)$/\2/p') ;;
            ship:3) words=0 ;;
            compact:2) words='minor major' ;;
            compact:3) words=$(_hwal_numbers 's/^store-\([0-9]*\)-[0-9]*$/\1/p') ;;
            groups:2) words='1 2 3 4' ;;
            load:*) words='--start --handlers --regions --count' ;;
        esac
    fi
    mapfile -t COMPREPLY < <(compgen -W "$words" -- "$word")
}

_hwal_tool() {
    local word=${COMP_WORDS[COMP_CWORD]} words=
    case "${1##*/}" in
        hwal-stat) words='--json --follower --help' ;;
        hwal-backup) words='--store --check --help' ;;
        to-script) words='--parts --keep-times --help' ;;
        from-hbase-shell) words='--split --family --time --help' ;;
        *) words='--help' ;;
    esac
    mapfile -t COMPREPLY < <(compgen -W "$words" -- "$word")
}

complete -F _hwal hwal ./hwal
complete -o default -F _hwal_tool hwal-stat hwal-backup hwal-json to-script from-hbase-shell
