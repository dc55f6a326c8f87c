# Completion of debcheck's command line for bash.

# Prints the architectures that begin so: Debian's ports, or where none of them does, all that dpkg knows.
_debcheck_architectures() {
    local ports='alpha amd64 arc arm64 armel armhf hppa hurd-amd64 hurd-i386 i386 ia64 loong64 m68k mips64el mipsel powerpc ppc64 ppc64el
        riscv64 s390x sh4 sparc64 x32'
    compgen -W "$ports" -- "$1" || compgen -W "$({ dpkg --print-architecture; dpkg-architecture -L; } 2>/dev/null | sort -u)" -- "$1"
}

_debcheck() {
    local word=${COMP_WORDS[COMP_CWORD]} option='' behind='' given
    COMPREPLY=()
    # The option whose value the word is: the word before it, or what stands before "=", where bash may have parted the word or not.
    if [[ $word == --*=* ]]; then
        option=${word%%=*} word=${word#*=} behind=$option=
    elif [[ $word == '=' ]]; then
        option=${COMP_WORDS[COMP_CWORD - 1]} word=''
    elif ((COMP_CWORD > 2)) && [[ ${COMP_WORDS[COMP_CWORD - 1]} == '=' ]]; then
        option=${COMP_WORDS[COMP_CWORD - 2]}
    elif ((COMP_CWORD > 1)); then
        option=${COMP_WORDS[COMP_CWORD - 1]}
    fi
    case $option in
    --arch)
        mapfile -t COMPREPLY < <(compgen -P "$behind" -W "$(_debcheck_architectures "$word")" -- "$word")
        return
        ;;
    --bg | --since)
        compopt -o filenames
        mapfile -t COMPREPLY < <(compgen -P "$behind" -f -- "$word")
        return
        ;;
    --format)
        mapfile -t COMPREPLY < <(compgen -P "$behind" -W 'text json' -- "$word")
        return
        ;;
    --checkonly)
        if [[ $word == @* ]]; then
            compopt -o filenames
            mapfile -t COMPREPLY < <(compgen -P "$behind@" -f -- "${word#@}")
        fi
        return
        ;;
    --workers | --chunk) return ;;
    esac
    # Each option is given once at most, --since and --successes not together, and what tells of broken packages alone not where none is shown.
    given=" ${COMP_WORDS[*]:0:COMP_CWORD} ${COMP_WORDS[*]:COMP_CWORD + 1} "
    [[ $given != *' --successes '* || $given == *' --failures '* ]] || given+='--all-reasons --why '
    [[ $given != *" --since"[\ =]* ]] || given+='--successes '
    [[ $given != *' --successes '* ]] || given+='--since '
    for option in --arch --bg --since --checkonly --format --workers --chunk --explain --failures --successes --causes \
        --all-reasons --why --ignore-essential --strict --quiet --help --version; do
        if [[ $option == "$word"* && $given != *" $option "* && $given != *" $option="* ]]; then
            COMPREPLY+=("$option")
        fi
    done
}

complete -F _debcheck debcheck
