# The words of `house` for fish. Made by share/make-pages from the text of help.
complete -c house -f
complete -c house -n __fish_use_subcommand -a run -d 'runs the call and writes the report'
complete -c house -n __fish_use_subcommand -a feasible -d 'says whether the call has a valid assignment'
complete -c house -n __fish_use_subcommand -a pairs -d 'writes the assignment, a line for each pair'
complete -c house -n __fish_use_subcommand -a audit -d 'writes the report as `run` does, and then the audit of the run into the file AUDIT'
complete -c house -n __fish_use_subcommand -a slip -d 'runs the call and writes the slip of the applicant NAME, from which its chance can be checked without FILE'
complete -c house -n __fish_use_subcommand -a reserve -d 'runs the call and writes the report, who moves up for each applicant that withdraws, and who holds a seat then'
complete -c house -n __fish_use_subcommand -a check -d 'says whether the chance that a slip prints is the right one'
complete -c house -n __fish_use_subcommand -a replay -d 'runs the lines of an audit again, and says whether it is the audit of its lines'
complete -c house -n __fish_use_subcommand -a migrate -d 'does the same, and stores their audit of the second version as NEW'
complete -c house -n __fish_use_subcommand -a join -d 'writes the desk file that has the reviews of two desks'
complete -c house -n __fish_use_subcommand -a help -d 'this page, or what a word means: one of the above, a reason, a kind of review lines that are set aside, a text such as `short`; `reasons`, `kinds` and `status` list them'
complete -c house -n __fish_use_subcommand -a version -d 'the commit and the toolchain'
complete -c house -n '__fish_seen_subcommand_from help' -a 'run feasible pairs audit slip reserve check replay migrate join help version reasons kinds status refused short too-long bad same differs migrated unlisted wrong withdraw final aside no-call order form name range known unknown too-many seal few unplaced invalid unfinished early late unassigned'
complete -c house -n '__fish_seen_subcommand_from run audit check replay migrate join' -F
