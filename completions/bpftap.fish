# Completions of bpftap for fish.

complete -c bpftap -f
complete -c bpftap -n __fish_use_subcommand -l hints -d 'Explain errors, as on a terminal'
complete -c bpftap -n __fish_use_subcommand -s h -l help -d 'Print help'
complete -c bpftap -n __fish_use_subcommand -s V -l version -d 'Print the version'
complete -c bpftap -n __fish_use_subcommand -a check -d 'Print the program of an expression'
complete -c bpftap -n __fish_use_subcommand -a explain -d 'Say why packets are accepted or rejected'
complete -c bpftap -n __fish_use_subcommand -a compare -d 'Print the packets that two filters treat differently'
complete -c bpftap -n __fish_use_subcommand -a info -d 'Print what each capture has'
complete -c bpftap -n __fish_use_subcommand -a cut -d 'Write what the filter accepts, cut'
complete -c bpftap -n __fish_use_subcommand -a split -d 'Write several captures in one pass'
complete -c bpftap -n __fish_use_subcommand -a parts -d 'Print ranges of a capture, to cut each apart'
complete -c bpftap -n __fish_use_subcommand -a join -d 'Put together what was cut of parts'
complete -c bpftap -n __fish_use_subcommand -a steps -d 'Play a script to listeners'
complete -c bpftap -n __fish_use_subcommand -a run -d 'Replay captures in threads'
complete -c bpftap -n __fish_use_subcommand -a help -d 'Print help of a command'

complete -c bpftap -n '__fish_seen_subcommand_from help' -a 'check explain compare info cut split parts join steps run expressions'

complete -c bpftap -n '__fish_seen_subcommand_from check; and not __fish_seen_subcommand_from help' -s d -d 'Print instructions by name'
complete -c bpftap -n '__fish_seen_subcommand_from check; and not __fish_seen_subcommand_from help' -s x -d 'Print the expression as it was read'
complete -c bpftap -n '__fish_seen_subcommand_from check; and not __fish_seen_subcommand_from help' -l json -d 'Print an object of JSON'
complete -c bpftap -n '__fish_seen_subcommand_from check; and not __fish_seen_subcommand_from help' -l dot -d 'Print the program as a graph for Graphviz'
complete -c bpftap -n '__fish_seen_subcommand_from check; and not __fish_seen_subcommand_from help' -s p -x -d 'With --dot, mark the way of this packet of IN'
complete -c bpftap -n '__fish_seen_subcommand_from check; and not __fish_seen_subcommand_from help' -s s -x -d 'Snapshot length that the program returns'
complete -c bpftap -n '__fish_seen_subcommand_from check; and not __fish_seen_subcommand_from help' -s e -x -d 'Filter expression'
complete -c bpftap -n '__fish_seen_subcommand_from check; and not __fish_seen_subcommand_from help' -s f -r -F -d 'Filter program'
complete -c bpftap -n '__fish_seen_subcommand_from check; and not __fish_seen_subcommand_from help' -s h -l help -d 'Print help'

complete -c bpftap -n '__fish_seen_subcommand_from explain; and not __fish_seen_subcommand_from help' -F
complete -c bpftap -n '__fish_seen_subcommand_from explain; and not __fish_seen_subcommand_from help' -s s -x -d 'Snapshot length that the program returns'
complete -c bpftap -n '__fish_seen_subcommand_from explain; and not __fish_seen_subcommand_from help' -s e -x -d 'Filter expression'
complete -c bpftap -n '__fish_seen_subcommand_from explain; and not __fish_seen_subcommand_from help' -s f -r -F -d 'Filter program'
complete -c bpftap -n '__fish_seen_subcommand_from explain; and not __fish_seen_subcommand_from help' -s p -x -d 'Explain only this packet, in full'
complete -c bpftap -n '__fish_seen_subcommand_from explain; and not __fish_seen_subcommand_from help' -s c -d 'Print only the counts'
complete -c bpftap -n '__fish_seen_subcommand_from explain; and not __fish_seen_subcommand_from help' -s l -d 'Print only the paths of captures with an accepted packet'
complete -c bpftap -n '__fish_seen_subcommand_from explain; and not __fish_seen_subcommand_from help' -s q -d 'Print nothing; the status says whether a packet is accepted'
complete -c bpftap -n '__fish_seen_subcommand_from explain; and not __fish_seen_subcommand_from help' -l exactly -x -d 'Status 0 if N packets are accepted'
complete -c bpftap -n '__fish_seen_subcommand_from explain; and not __fish_seen_subcommand_from help' -l at-least -x -d 'Status 0 if N packets or more are accepted'
complete -c bpftap -n '__fish_seen_subcommand_from explain; and not __fish_seen_subcommand_from help' -l at-most -x -d 'Status 0 if N packets or fewer are accepted'
complete -c bpftap -n '__fish_seen_subcommand_from explain; and not __fish_seen_subcommand_from help' -l json -d 'Print objects of JSON'
complete -c bpftap -n '__fish_seen_subcommand_from explain; and not __fish_seen_subcommand_from help' -s h -l help -d 'Print help'

complete -c bpftap -n '__fish_seen_subcommand_from compare; and not __fish_seen_subcommand_from help' -F
complete -c bpftap -n '__fish_seen_subcommand_from compare; and not __fish_seen_subcommand_from help' -s s -x -d 'Snapshot length that the program returns'
complete -c bpftap -n '__fish_seen_subcommand_from compare; and not __fish_seen_subcommand_from help' -s f -r -F -d 'Filter program instead of EXPR2'
complete -c bpftap -n '__fish_seen_subcommand_from compare; and not __fish_seen_subcommand_from help' -s q -d 'Print nothing; the status says whether a packet is treated differently'
complete -c bpftap -n '__fish_seen_subcommand_from compare; and not __fish_seen_subcommand_from help' -s w -r -F -d 'Without IN, write a packet that shows the difference'
complete -c bpftap -n '__fish_seen_subcommand_from compare; and not __fish_seen_subcommand_from help' -l json -d 'Print objects of JSON'
complete -c bpftap -n '__fish_seen_subcommand_from compare; and not __fish_seen_subcommand_from help' -s h -l help -d 'Print help'

complete -c bpftap -n '__fish_seen_subcommand_from info; and not __fish_seen_subcommand_from help' -F
complete -c bpftap -n '__fish_seen_subcommand_from info; and not __fish_seen_subcommand_from help' -l json -d 'Print objects of JSON'
complete -c bpftap -n '__fish_seen_subcommand_from info; and not __fish_seen_subcommand_from help' -s h -l help -d 'Print help'

complete -c bpftap -n '__fish_seen_subcommand_from cut; and not __fish_seen_subcommand_from help' -F
complete -c bpftap -n '__fish_seen_subcommand_from cut; and not __fish_seen_subcommand_from help' -s s -x -d 'Keep at most this many bytes of a packet; 0 means 262144'
complete -c bpftap -n '__fish_seen_subcommand_from cut; and not __fish_seen_subcommand_from help' -s e -x -d 'Filter expression'
complete -c bpftap -n '__fish_seen_subcommand_from cut; and not __fish_seen_subcommand_from help' -s f -r -F -d 'Filter program'
complete -c bpftap -n '__fish_seen_subcommand_from cut; and not __fish_seen_subcommand_from help' -s o -x -a 'little big' -d 'Byte order of OUT'
complete -c bpftap -n '__fish_seen_subcommand_from cut; and not __fish_seen_subcommand_from help' -s u -x -a 'micro nano' -d 'Unit of the time stamps of OUT'
complete -c bpftap -n '__fish_seen_subcommand_from cut; and not __fish_seen_subcommand_from help' -s c -d 'Print how many packets were written'
complete -c bpftap -n '__fish_seen_subcommand_from cut; and not __fish_seen_subcommand_from help' -s w -r -F -d 'Capture to write; all other words are read'
complete -c bpftap -n '__fish_seen_subcommand_from cut; and not __fish_seen_subcommand_from help' -l bytes -x -d 'Cut only the packets in these bytes'
complete -c bpftap -n '__fish_seen_subcommand_from cut; and not __fish_seen_subcommand_from help' -l json -d 'Report counts and faults as JSON'
complete -c bpftap -n '__fish_seen_subcommand_from cut; and not __fish_seen_subcommand_from help' -s h -l help -d 'Print help'

complete -c bpftap -n '__fish_seen_subcommand_from split; and not __fish_seen_subcommand_from help' -F
complete -c bpftap -n '__fish_seen_subcommand_from split; and not __fish_seen_subcommand_from help' -s o -x -a 'little big' -d 'Byte order of each OUT'
complete -c bpftap -n '__fish_seen_subcommand_from split; and not __fish_seen_subcommand_from help' -s u -x -a 'micro nano' -d 'Unit of the time stamps of each OUT'
complete -c bpftap -n '__fish_seen_subcommand_from split; and not __fish_seen_subcommand_from help' -l json -d 'Print objects of JSON'
complete -c bpftap -n '__fish_seen_subcommand_from split; and not __fish_seen_subcommand_from help' -s h -l help -d 'Print help'

complete -c bpftap -n '__fish_seen_subcommand_from parts; and not __fish_seen_subcommand_from help' -F
complete -c bpftap -n '__fish_seen_subcommand_from parts; and not __fish_seen_subcommand_from help' -l json -d 'Print objects of JSON'
complete -c bpftap -n '__fish_seen_subcommand_from parts; and not __fish_seen_subcommand_from help' -s h -l help -d 'Print help'

complete -c bpftap -n '__fish_seen_subcommand_from join; and not __fish_seen_subcommand_from help' -F
complete -c bpftap -n '__fish_seen_subcommand_from join; and not __fish_seen_subcommand_from help' -s h -l help -d 'Print help'

complete -c bpftap -n '__fish_seen_subcommand_from steps; and not __fish_seen_subcommand_from help' -F
complete -c bpftap -n '__fish_seen_subcommand_from steps; and not __fish_seen_subcommand_from help' -s v -d 'Print the answers first, and why'
complete -c bpftap -n '__fish_seen_subcommand_from steps; and not __fish_seen_subcommand_from help' -s p -r -F -d 'Draw what each step found'
complete -c bpftap -n '__fish_seen_subcommand_from steps; and not __fish_seen_subcommand_from help' -l json -d 'Print objects of JSON'
complete -c bpftap -n '__fish_seen_subcommand_from steps; and not __fish_seen_subcommand_from help' -s h -l help -d 'Print help'

complete -c bpftap -n '__fish_seen_subcommand_from run; and not __fish_seen_subcommand_from help' -F
complete -c bpftap -n '__fish_seen_subcommand_from run; and not __fish_seen_subcommand_from help' -l json -d 'Print objects of JSON'
complete -c bpftap -n '__fish_seen_subcommand_from run; and not __fish_seen_subcommand_from help' -s h -l help -d 'Print help'
