# Completion of `club` for bash. Made by tests/gate/manual.py --write from the help texts of the program.
_club() {
    local word current=${COMP_WORDS[COMP_CWORD]} file='' command='' count=0 skip='' at
    local options='--explain --json --now -h --help -V --version' valued='--now'
    local arguments=()
    COMPREPLY=()
    for ((at = 1; at < COMP_CWORD; at++)); do
        word=${COMP_WORDS[at]}
        if [[ $skip ]]; then
            skip=''
        elif [[ $word == -?* ]]; then
            [[ " $valued " != *" $word "* ]] || skip=yes
        elif [[ ! $file ]]; then
            file=$word
        elif [[ ! $command ]]; then
            command=$word
            _club_command "$command" || return 0
        else
            count=$((count + 1))
        fi
    done
    if [[ $skip ]]; then
        return 0
    elif [[ $current == -?* || ( $current == - && ! $command ) ]]; then
        mapfile -t COMPREPLY < <(compgen -W "$options" -- "$current")
    elif [[ ! $file ]]; then
        _club_files
    elif [[ ! $command ]]; then
        mapfile -t COMPREPLY < <(compgen -W 'init member event seat import-pdn import-csa move sweep batch round-robin rule retire extend rulings key close legal show export export-event table members events games challenges verify upgrade backup serve' -- "$current")
    elif [[ ${arguments[count]-} == file ]]; then
        _club_files
    elif [[ ${arguments[count]--} != - ]]; then
        mapfile -t COMPREPLY < <(compgen -W "${arguments[count]}" -- "$current")
    fi
}

_club_command() { # COMMAND: sets its options and the kinds of its arguments
    case $1 in
        init) options='--arbiter -h --help' valued='' arguments=() ;;
        member) options='-h --help' valued='' arguments=('-' '-') ;;
        event) options='-h --help' valued='' arguments=('-' 'draughts shogi' '-' '-') ;;
        seat) options='-h --help' valued='' arguments=('-' '-' '-' '-') ;;
        import-pdn) options='-h --help' valued='' arguments=('-' '-' '-' '-' 'file') ;;
        import-csa) options='--part -h --help' valued='--part' arguments=('-' '-' '-' '-' 'file') ;;
        move) options='-h --help' valued='' arguments=('-' '-' '-') ;;
        sweep) options='--most -h --help' valued='--most' arguments=() ;;
        batch) options='-h --help' valued='' arguments=('file') ;;
        round-robin) options='--double --dry -h --help' valued='' arguments=('-' '-' '-') ;;
        rule) options='-h --help' valued='' arguments=('-' '-' '-') ;;
        retire) options='--dry -h --help' valued='' arguments=('-' '-' '-') ;;
        extend) options='--dry -h --help' valued='' arguments=('-' '-') ;;
        rulings) options='-h --help' valued='' arguments=('-') ;;
        key) options='-h --help' valued='' arguments=('-' '-' '-') ;;
        close) options='-h --help' valued='' arguments=('-') ;;
        legal) options='-h --help' valued='' arguments=('-') ;;
        show) options='--letters -h --help' valued='' arguments=('-') ;;
        export) options='-h --help' valued='' arguments=('-') ;;
        export-event) options='-h --help' valued='' arguments=('-') ;;
        table) options='-h --help' valued='' arguments=('-') ;;
        members) options='-h --help' valued='' arguments=() ;;
        events) options='-h --help' valued='' arguments=() ;;
        games) options='--event --member --running --overdue -h --help' valued='--event --member' arguments=() ;;
        challenges) options='-h --help' valued='' arguments=() ;;
        verify) options='-h --help' valued='' arguments=() ;;
        upgrade) options='--arbiter -h --help' valued='' arguments=() ;;
        backup) options='-h --help' valued='' arguments=('file') ;;
        serve) options='--log --count --host -h --help' valued='--count --host' arguments=('-') ;;
        *) return 1 ;;
    esac
}

_club_files() {
    mapfile -t COMPREPLY < <(compgen -f -- "$current")
    compopt -o filenames 2> /dev/null || true
}

complete -F _club club
