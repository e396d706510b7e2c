# Completion of dnstext for bash.
_dnstext() {
    local word=${COMP_WORDS[COMP_CWORD]} words=
    case $COMP_CWORD in
        1)
            case $word in
                -*) words=--version ;;
                *) words='scan print line' ;;
            esac
            ;;
        2)
            case ${COMP_WORDS[1]} in
                scan) words='u8 u16 u32 u64 u128 ttl charstr hex base32hex base64 name' ;;
                print | line) words='simple tabbed multiline' ;;
            esac
            ;;
    esac
    COMPREPLY=($(compgen -W "$words" -- "$word"))
}
complete -F _dnstext dnstext
