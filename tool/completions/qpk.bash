# Completion of qpk for bash. Where no word fits, bash completes the name of a file.
_qpk() {
    local words='' source='--keys --connection --by --pdml --max-capacity --max-blocked --qif'
    if [ "$COMP_CWORD" = 1 ]; then
        words='encode decode show check explain report open stats table tune strip inspect run help --version'
    else
        case ${COMP_WORDS[COMP_CWORD - 1]} in
        --keys) COMPREPLY=() && return ;;
        --by)
            mapfile -t COMPREPLY < <(compgen -W 'libcrypto tshark' -- "${COMP_WORDS[COMP_CWORD]}")
            return
            ;;
        esac
        case ${COMP_WORDS[1]} in
        encode) words='--qif' ;;
        decode) words='--hex --json --qif' ;;
        show)
            words='--table --json --qlog --follow --max-capacity --max-blocked --qif --keys --connection --by --stream'
            words+=' --color=always --color=auto --color=never'
            ;;
        check)
            words='--json --all --max-capacity --max-blocked --qif --keys --connection --by'
            words+=' --color=always --color=auto --color=never'
            ;;
        explain)
            words='--encoder-stream --decoder-stream --max-capacity --keys --connection --by'
            words+=' --color=always --color=auto --color=never'
            ;;
        report | open) words="-o $source" ;;
        stats) words="--json --try $source" ;;
        tune) words=$source ;;
        strip) words="--seed ${source/ --pdml/}" words=${words/ --qif/} ;;
        table) words="--at --entry --from --json $source" ;;
        esac
    fi
    mapfile -t COMPREPLY < <(compgen -W "$words" -- "${COMP_WORDS[COMP_CWORD]}")
}
complete -o default -F _qpk qpk
