# Completion of zonetext for bash.
_zonetext() {
    local word=${COMP_WORDS[COMP_CWORD]} options
    if [ "$COMP_CWORD" -eq 1 ]; then
        COMPREPLY=($(compgen -W 'check tokens fmt lines records canon diff digest serial cut expand codes explain help --help --version -h -V' -- "$word"))
        return
    fi
    local values=''
    case ${COMP_WORDS[COMP_CWORD - 1]} in
        --allow | --deny) values=$(zonetext codes 2>/dev/null | cut -f 1) ;;
        --format) values='text json github sarif checkstyle' ;;
        --color) values='auto always never' ;;
        --class) values='IN CH HS' ;;
        --hash) values='sha384 sha512' ;;
        --include | --base | --root)
            compopt -o filenames
            COMPREPLY=($(compgen -d -- "$word"))
            return
            ;;
        --zone | --origin | --within | --now | --max* | --name-form | --memory | --type | --skip-type | --set | --part | --offsets) return ;;
    esac
    if [ -n "$values" ]; then
        COMPREPLY=($(compgen -W "$values" -- "$word"))
        return
    fi
    case ${COMP_WORDS[1]} in
        check)
            options='--text --zone --zone-from-name --include --base --stdin-name --dnssec --no-dnssec --within --now --deny --allow --strict'
            options+=' --root --part --skip-type --errors-only --summary --baseline --write-baseline'
            options+=' --conf --zones --name-form --recursive --max-ttl --max-generate --max-entry --class --format --json --excerpt --max --color --verbose --quiet -v'
            ;;
        canon)
            options='--json --keep-order --lenient --memory --wire --type --only-dnssec --zone --zone-from-name --class --include --base'
            options+=' --max-generate --max-entry --no-dnssec --no-soa --quiet'
            ;;
        diff)
            options='--json --entries --summary --max-changes --need-serial --max-removed --nsupdate --no-prereq --update-keys'
            options+=' --zone --zone-from-name --class --include --base --max-generate --max-entry --no-dnssec --no-soa --quiet'
            ;;
        tokens) options='--json --quiet' ;;
        fmt) options='--write --check --diff --force --quiet -w' ;;
        lines) options='--tabbed --quiet' ;;
        records) options='--json --max --part --zone --zone-from-name --class --include --base --max-generate --max-entry --quiet' ;;
        digest)
            options='--json --write --hash --force --any --verbose --zone --zone-from-name --class --include --base'
            options+=' --max-generate --max-entry --quiet -w -v'
            ;;
        serial)
            options='--json --write --date --unix --increment --set --if-changed --now --force --zone --zone-from-name --class --include --base'
            options+=' --max-generate --max-entry --quiet -w'
            ;;
        cut) options='--output --offsets --soa --zone --zone-from-name --class --max-entry --quiet -o' ;;
        expand) options='--max-generate --quiet' ;;
        codes) options='' ;;
        explain)
            if [[ $word != -* ]]; then
                COMPREPLY=($(compgen -W "$(zonetext codes 2>/dev/null | cut -f 1)" -- "$word"))
                return
            fi
            ;;
        help)
            COMPREPLY=($(compgen -W 'check tokens fmt lines records canon diff digest serial cut expand codes explain help' -- "$word"))
            return
            ;;
        *) return ;;
    esac
    if [[ $word == -* ]]; then
        COMPREPLY=($(compgen -W "$options --help -h" -- "$word"))
    else
        compopt -o filenames
        COMPREPLY=($(compgen -f -- "$word"))
    fi
}
complete -F _zonetext zonetext
