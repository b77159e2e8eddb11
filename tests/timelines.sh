# Functions that write the JSON of timelines at 24 frames a second. Tables read this file.

# MEMBERS are further members of an object, each after a comma, as in `,"kind":"Audio"`.

# A time: FRAMES.
frames() {
    printf '{"OTIO_SCHEMA":"RationalTime.1","rate":24,"value":%s}' "$1"
}

# A range: START LENGTH.
range() {
    printf '{"OTIO_SCHEMA":"TimeRange.1","start_time":%s,"duration":%s}' \
        "$(frames "$1")" "$(frames "$2")"
}

# A gap: LENGTH.
gap() {
    printf '{"OTIO_SCHEMA":"Gap.1","source_range":%s}' "$(range 0 "$1")"
}

# A clip, whose media have the frames 0 to 239: URL START LENGTH [MEMBERS].
clip() {
    printf '{"OTIO_SCHEMA":"Clip.2","source_range":%s,' "$(range "$2" "$3")"
    printf '"media_references":{"DEFAULT_MEDIA":{"OTIO_SCHEMA":"ExternalReference.1",'
    printf '"available_range":%s,"target_url":"%s"}}%s}' "$(range 0 240)" "$1" "${4:-}"
}

# A dissolve: FRAMES before the cut, FRAMES after it.
dissolve() {
    printf '{"OTIO_SCHEMA":"Transition.1","in_offset":%s,"out_offset":%s}' \
        "$(frames "$1")" "$(frames "$2")"
}

# The member of an item that is shown at other speeds, one after another: SPEED..
speeds() {
    printf ',"effects":[%s]' "$(
        between=
        for speed in "$@"; do
            printf '%s{"OTIO_SCHEMA":"LinearTimeWarp.1","time_scalar":%s}' "$between" "$speed"
            between=,
        done
    )"
}

# A composition: SCHEMA MEMBERS ITEM..
composition() {
    printf '{"OTIO_SCHEMA":"%s"%s,"children":[%s]}' "$1" "$2" "$(
        shift 2
        IFS=,
        printf '%s' "$*"
    )"
}

# A track: ITEM..
track() {
    composition Track.1 '' "$@"
}

# A timeline: TRACK..
timeline() {
    printf '{"OTIO_SCHEMA":"Timeline.1","tracks":%s}\n' "$(composition Stack.1 '' "$@")"
}

# A timeline that starts at frame 86400: two clips of 48 frames with a dissolve of 12 between them,
# a clip of 12 frames at twice its speed after a gap of 72, and sound.
three_tracks() {
    printf '{"OTIO_SCHEMA":"Timeline.1","global_start_time":%s,"tracks":%s}\n' \
        "$(frames 86400)" "$(composition Stack.1 '' \
            "$(track "$(clip a.mov 24 48)" "$(dissolve 6 6)" "$(clip b.mov 100 48)")" \
            "$(track "$(gap 72)" "$(clip c.mov 40 12 "$(speeds 2.0)")")" \
            "$(composition Track.1 ',"kind":"Audio"' "$(clip a.wav 0 96)")")"
}

# A track of a clip, a stack at twice its speed, and a clip. The stack has a track of two clips of
# 30 frames. Its further members may give it a range: MEMBERS.
nested_track() {
    timeline "$(track "$(clip p.mov 0 10)" \
        "$(composition Stack.1 "$1$(speeds 2.0)" \
            "$(track "$(clip q.mov 0 30)" "$(clip r.mov 0 30)")")" \
        "$(clip z.mov 0 10)")"
}
