#compdef debcheck
# Completion of debcheck's command line for zsh.

# Offers Debian's ports, or where none of them begins so, all architectures that dpkg knows.
_debcheck_architectures() {
    local -aU ports known
    ports=(alpha amd64 arc arm64 armel armhf hppa hurd-amd64 hurd-i386 i386 ia64 loong64 m68k mips64el mipsel powerpc ppc64 ppc64el
        riscv64 s390x sh4 sparc64 x32)
    known=(${(f)"$({ dpkg --print-architecture; dpkg-architecture -L } 2>/dev/null)"})
    compadd -a ports || compadd -a known
}

_arguments \
    '--arch=[architecture to check]:architecture:_debcheck_architectures' \
    '--bg=[file of a background, a second index]:file:_files' \
    '(--successes)--since=[tell what became broken since an earlier index]:file:_files' \
    '--checkonly=[decide only the packages of these names]:names with commas between them, or @ and a file: ' \
    '--format=[form of the report]:form:(text json)' \
    '--workers=[how many workers decide packages]:number from 1 to 64: ' \
    '--chunk=[how many packages a worker takes at a time]:number from 1 to 1000000: ' \
    '--explain[show a set for each ok package and reasons for each broken one]' \
    '--failures[show only the broken packages]' \
    '(--since)--successes[show only the ok packages]' \
    '--causes[end the report with the causes of what is broken]' \
    '--all-reasons[show the reasons of all causes of a broken package]' \
    '--why[show the reasons of a broken package as they are walked from it]' \
    '--ignore-essential[let no name be essential]' \
    '--strict[end with a fault where nothing is asked]' \
    '--quiet[show no progress and no hints]' \
    '(- *)'{-h,--help}'[write a summary of the options]' \
    '(- *)'{-V,--version}'[write the version]'
