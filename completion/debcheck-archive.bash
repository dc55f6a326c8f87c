# Completion of debcheck-archive's command line for bash.

_debcheck_archive() {
    local word=${COMP_WORDS[COMP_CWORD]} before=${COMP_WORDS[COMP_CWORD - 1]} command=${COMP_WORDS[1]} words=''
    COMPREPLY=()
    if ((COMP_CWORD == 1)); then
        mapfile -t COMPREPLY < <(compgen -W "$(debcheck-archive --commands 2>/dev/null) --help" -- "$word")
        return
    fi
    case $before in
    --arch) words='amd64 arm64 armhf i386 ppc64el riscv64 s390x' ;;
    --format | --report) words='text json' ;;
    --by) words='source maintainer' ;;
    --profiles) words='nocheck nodoc nocheck,nodoc' ;;
    --mirror)
        compopt -o filenames
        mapfile -t COMPREPLY < <(compgen -d -- "$word")
        return
        ;;
    --suite | --component | --checkonly) return ;;
    esac
    if [[ -n $words ]]; then
        mapfile -t COMPREPLY < <(compgen -W "$words" -- "$word")
    elif [[ $word == -* ]]; then
        mapfile -t COMPREPLY < <(compgen -W "$(debcheck-archive --words "$command" 2>/dev/null)" -- "$word")
    else
        compopt -o filenames
        mapfile -t COMPREPLY < <(compgen -f -- "$word")
    fi
}

complete -F _debcheck_archive debcheck-archive
