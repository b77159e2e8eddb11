# Completions of otio for fish. Written by share/make.
complete -c otio -f -n __fish_use_subcommand -a convert -d 'one file, rewritten'
complete -c otio -f -n __fish_use_subcommand -a frames -d 'what a timeline shows'
complete -c otio -f -n __fish_use_subcommand -a edit -d 'a cut changed by a script'
complete -c otio -f -n __fish_use_subcommand -a cat -d 'timelines one after another'
complete -c otio -f -n __fish_use_subcommand -a tool -d 'timelines joined, changed and listed'
complete -c otio -f -n __fish_use_subcommand -a stat -d 'a timeline counted'
complete -c otio -f -n __fish_use_subcommand -a pull -d 'the frames that a cut needs'
complete -c otio -f -n __fish_use_subcommand -a media -d 'a log as a media list'
complete -c otio -f -n __fish_use_subcommand -a drill -d 'a self test'
complete -c otio -n '__fish_seen_subcommand_from convert' -l from -x -a 'otio edl'
complete -c otio -n '__fish_seen_subcommand_from convert' -l to -x -a 'otio edl json'
complete -c otio -n '__fish_seen_subcommand_from convert' -l family -x -a '1 2'
complete -c otio -n '__fish_seen_subcommand_from convert' -l rate -x
complete -c otio -n '__fish_seen_subcommand_from convert' -l drop
complete -c otio -n '__fish_seen_subcommand_from convert' -l wide
complete -c otio -n '__fish_seen_subcommand_from convert' -l notes
complete -c otio -n '__fish_seen_subcommand_from convert' -l media -r
complete -c otio -n '__fish_seen_subcommand_from convert' -s o -r
complete -c otio -n '__fish_seen_subcommand_from convert' -l output -r
complete -c otio -n '__fish_seen_subcommand_from frames' -l child -x
complete -c otio -n '__fish_seen_subcommand_from frames' -l start -x
complete -c otio -n '__fish_seen_subcommand_from frames' -l count -x
complete -c otio -n '__fish_seen_subcommand_from frames' -l rate -x
complete -c otio -n '__fish_seen_subcommand_from frames' -l media -r
complete -c otio -n '__fish_seen_subcommand_from frames' -s o -r
complete -c otio -n '__fish_seen_subcommand_from frames' -l output -r
complete -c otio -n '__fish_seen_subcommand_from edit' -l script -r
complete -c otio -n '__fish_seen_subcommand_from edit' -l rate -x
complete -c otio -n '__fish_seen_subcommand_from edit' -l media -r
complete -c otio -n '__fish_seen_subcommand_from edit' -s o -r
complete -c otio -n '__fish_seen_subcommand_from edit' -l output -r
complete -c otio -n '__fish_seen_subcommand_from cat' -l rate -x
complete -c otio -n '__fish_seen_subcommand_from cat' -l media -r
complete -c otio -n '__fish_seen_subcommand_from cat' -s o -r
complete -c otio -n '__fish_seen_subcommand_from cat' -l output -r
complete -c otio -n '__fish_seen_subcommand_from tool' -l rate -x
complete -c otio -n '__fish_seen_subcommand_from tool' -l media -r
complete -c otio -n '__fish_seen_subcommand_from tool' -s o -r
complete -c otio -n '__fish_seen_subcommand_from tool' -l concat
complete -c otio -n '__fish_seen_subcommand_from tool' -l stack
complete -c otio -n '__fish_seen_subcommand_from tool' -l video-only
complete -c otio -n '__fish_seen_subcommand_from tool' -l audio-only
complete -c otio -n '__fish_seen_subcommand_from tool' -l remove-transitions
complete -c otio -n '__fish_seen_subcommand_from tool' -l trim -x
complete -c otio -n '__fish_seen_subcommand_from tool' -l flatten -x -a 'video audio all'
complete -c otio -n '__fish_seen_subcommand_from tool' -l keep-flattened-tracks
complete -c otio -n '__fish_seen_subcommand_from tool' -l list-tracks
complete -c otio -n '__fish_seen_subcommand_from tool' -l list-clips
complete -c otio -n '__fish_seen_subcommand_from tool' -l list-media
complete -c otio -n '__fish_seen_subcommand_from tool' -l stats
complete -c otio -n '__fish_seen_subcommand_from tool' -l output -r
complete -c otio -n '__fish_seen_subcommand_from stat' -l rate -x
complete -c otio -n '__fish_seen_subcommand_from stat' -l media -r
complete -c otio -n '__fish_seen_subcommand_from stat' -s o -r
complete -c otio -n '__fish_seen_subcommand_from stat' -l output -r
complete -c otio -n '__fish_seen_subcommand_from pull' -l handles -x
complete -c otio -n '__fish_seen_subcommand_from pull' -l rate -x
complete -c otio -n '__fish_seen_subcommand_from pull' -l media -r
complete -c otio -n '__fish_seen_subcommand_from pull' -s o -r
complete -c otio -n '__fish_seen_subcommand_from pull' -l output -r
complete -c otio -n '__fish_seen_subcommand_from media' -s o -r
complete -c otio -n '__fish_seen_subcommand_from media' -l output -r
complete -c otio -n '__fish_seen_subcommand_from drill' -s o -r
complete -c otio -n '__fish_seen_subcommand_from drill' -l output -r
