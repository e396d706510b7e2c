# Completion of dnstext for fish.
complete -c dnstext -f
complete -c dnstext -n 'test (count (commandline -opc)) -eq 1' -a scan -d 'Print the value of each token'
complete -c dnstext -n 'test (count (commandline -opc)) -eq 1' -a print -d 'Print a document in a layout'
complete -c dnstext -n 'test (count (commandline -opc)) -eq 1' -a line -d 'Print a line of fields in a layout'
complete -c dnstext -n 'test (count (commandline -opc)) -eq 1' -l version -d 'Print the version'
complete -c dnstext -n 'test (count (commandline -opc)) -eq 2; and __fish_seen_subcommand_from scan' -a 'u8 u16 u32 u64 u128 ttl charstr hex base32hex base64 name'
complete -c dnstext -n 'test (count (commandline -opc)) -eq 2; and __fish_seen_subcommand_from print line' -a 'simple tabbed multiline'
