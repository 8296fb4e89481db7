# Completion of aec(1) in bash.
_aec() {
    local word=${COMP_WORDS[COMP_CWORD]} words=
    case ${COMP_WORDS[COMP_CWORD - 1]} in
        -b | --samples) return ;;
        -j | --block) words='8 16 32 64' ;;
        -n | --bits) words='8 10 12 14 16 24 32' ;;
        -r | --interval) words='1 2 64 128 256 4096' ;;
        *)
            if [[ $word == -* ]]; then
                words='-3 --three-bytes -N --no-preprocess -b -d --decompress -j --block -m --big-endian -n --bits -p --pad -r --interval -s --signed --samples --test --verbose -h --help -V --version'
            else
                compopt -o default
            fi
            ;;
    esac
    COMPREPLY=($(compgen -W "$words" -- "$word"))
}
complete -o nosort -F _aec aec
