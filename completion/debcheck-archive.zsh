#compdef debcheck-archive
# Completion of debcheck-archive's command line for zsh.

_debcheck_archive() {
    local -a known
    if ((CURRENT == 2)); then
        known=(${(f)"$(debcheck-archive --commands 2>/dev/null)"})
        compadd -a known
        return
    fi
    case ${words[CURRENT - 1]} in
        --arch) compadd amd64 arm64 armhf i386 ppc64el riscv64 s390x ;;
        --format | --report) compadd text json ;;
        --by) compadd source maintainer ;;
        --profiles) compadd nocheck nodoc nocheck,nodoc ;;
        --mirror) _files -/ ;;
        --suite | --component | --checkonly) ;;
        *)
            if [[ ${words[CURRENT]} == -* ]]; then
                known=(${(f)"$(debcheck-archive --words ${words[2]} 2>/dev/null)"})
                compadd -a known
            else
                _files
            fi
            ;;
    esac
}

_debcheck_archive "$@"
