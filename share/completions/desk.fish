# The words of `desk` for fish. Made by share/make-pages from the text of help.
complete -c desk -f
complete -c desk -n __fish_use_subcommand -a intake -d 'puts each line of standard input into the journal, and writes `kept N` once no crash can lose it: N is how many lines the journal has then'
complete -c desk -n __fish_use_subcommand -a show -d 'writes the lines of the journal: bin/desk show | bin/house run'
complete -c desk -n __fish_use_subcommand -a help -d 'this page'
complete -c desk -n __fish_use_subcommand -a version -d 'the commit and the toolchain'
