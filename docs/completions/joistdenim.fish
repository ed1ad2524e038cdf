# Completions of joistdenim for fish: what 'joistdenim --completions fish' prints.
complete -c joistdenim -f
complete -c joistdenim -n __fish_use_subcommand -a list -d 'prints the list of a table'
complete -c joistdenim -n __fish_use_subcommand -a table -d 'makes a table of its list, or of the short form'
complete -c joistdenim -n __fish_use_subcommand -a show -d 'shows what becomes of keys'
complete -c joistdenim -n __fish_use_subcommand -a cut -d 'cuts a table at a key'
complete -c joistdenim -n __fish_use_subcommand -a insert -d 'puts a key into a table as a new pivot'
complete -c joistdenim -n __fish_use_subcommand -a join -d 'puts two tables together'
complete -c joistdenim -n __fish_use_subcommand -a check -d 'says whether tables are well formed'
complete -c joistdenim -n __fish_use_subcommand -a bucket -d 'renames the keys of a bucket'
complete -c joistdenim -n __fish_use_subcommand -l help -d 'tells how it is used'
complete -c joistdenim -n __fish_use_subcommand -l version -d 'prints the version'
complete -c joistdenim -n __fish_use_subcommand -l man -d 'prints the manual page'
complete -c joistdenim -n __fish_use_subcommand -l completions -x -a 'bash zsh fish' -d 'prints what a shell reads to complete words'
complete -c joistdenim -n '__fish_seen_subcommand_from help' -a 'list table show cut insert join check bucket'
complete -c joistdenim -n '__fish_seen_subcommand_from list' -l short -d 'left bounds, edges with what they replace, and the end'
complete -c joistdenim -n '__fish_seen_subcommand_from list' -l text -d 'adds the keys as characters, behind a #'
complete -c joistdenim -n '__fish_seen_subcommand_from list' -s o -l output -r -F -d 'writes to a file, whole or not at all'
complete -c joistdenim -n '__fish_seen_subcommand_from list' -l help -d 'tells how it is used'
complete -c joistdenim -n '__fish_seen_subcommand_from list' -F
complete -c joistdenim -n '__fish_seen_subcommand_from table' -s o -l output -r -F -d 'writes to a file, whole or not at all'
complete -c joistdenim -n '__fish_seen_subcommand_from table' -l help -d 'tells how it is used'
complete -c joistdenim -n '__fish_seen_subcommand_from table' -F
complete -c joistdenim -n '__fish_seen_subcommand_from show' -l text -d 'takes keys as they are written, not in hexadecimal'
complete -c joistdenim -n '__fish_seen_subcommand_from show' -l tsv -d 'a header and a row for each key, fields parted by tabs'
complete -c joistdenim -n '__fish_seen_subcommand_from show' -l help -d 'tells how it is used'
complete -c joistdenim -n '__fish_seen_subcommand_from show' -F
complete -c joistdenim -n '__fish_seen_subcommand_from cut' -l text -d 'takes keys as they are written, not in hexadecimal'
complete -c joistdenim -n '__fish_seen_subcommand_from cut' -s o -l output -r -F -d 'writes to a file, whole or not at all'
complete -c joistdenim -n '__fish_seen_subcommand_from cut' -l help -d 'tells how it is used'
complete -c joistdenim -n '__fish_seen_subcommand_from cut' -a 'left right'
complete -c joistdenim -n '__fish_seen_subcommand_from cut' -F
complete -c joistdenim -n '__fish_seen_subcommand_from insert' -l text -d 'takes keys as they are written, not in hexadecimal'
complete -c joistdenim -n '__fish_seen_subcommand_from insert' -s o -l output -r -F -d 'writes to a file, whole or not at all'
complete -c joistdenim -n '__fish_seen_subcommand_from insert' -l help -d 'tells how it is used'
complete -c joistdenim -n '__fish_seen_subcommand_from insert' -F
complete -c joistdenim -n '__fish_seen_subcommand_from join' -s o -l output -r -F -d 'writes to a file, whole or not at all'
complete -c joistdenim -n '__fish_seen_subcommand_from join' -l help -d 'tells how it is used'
complete -c joistdenim -n '__fish_seen_subcommand_from join' -F
complete -c joistdenim -n '__fish_seen_subcommand_from check' -s o -l output -r -F -d 'writes to a file, whole or not at all'
complete -c joistdenim -n '__fish_seen_subcommand_from check' -l help -d 'tells how it is used'
complete -c joistdenim -n '__fish_seen_subcommand_from check' -F
complete -c joistdenim -n '__fish_seen_subcommand_from bucket' -l text -d 'takes OLD and NEW as they are written'
complete -c joistdenim -n '__fish_seen_subcommand_from bucket' -l bytes -d 'reads and writes entries of 70 bytes, not text'
complete -c joistdenim -n '__fish_seen_subcommand_from bucket' -l report -d 'a row for each entry: kept, skipped or too long'
complete -c joistdenim -n '__fish_seen_subcommand_from bucket' -s o -l output -r -F -d 'writes to a file, whole or not at all'
complete -c joistdenim -n '__fish_seen_subcommand_from bucket' -l help -d 'tells how it is used'
complete -c joistdenim -n '__fish_seen_subcommand_from bucket' -a 'translate'
complete -c joistdenim -n '__fish_seen_subcommand_from bucket' -F
