# What the tables of lists make timelines of. They read this file after timelines.sh. MEMBERS come
# last in their object, and of two members of one name the later one counts.

# The member of an item's range: START LENGTH.
span() {
    printf ',"source_range":%s' "$(range "$1" "$2")"
}

# The member of a clip's reel: REEL.
reel() {
    printf ',"metadata":{"cmx_3600":{"reel":"%s"}}' "$1"
}

# The member of a clip's media: URL.
media() {
    printf ',"media_references":{"DEFAULT_MEDIA":{"OTIO_SCHEMA":"ExternalReference.1",'
    printf '"target_url":"%s"}}' "$1"
}

# A clip of a second from frame 0 on, of the reel A1: [MEMBERS].
shot() {
    printf '{"OTIO_SCHEMA":"Clip.2"%s%s%s}' "$(reel A1)" "$(span 0 24)" "${1:-}"
}

# A dissolve that goes on for twelve frames after its cut: [MEMBERS].
cross() {
    printf '{"OTIO_SCHEMA":"Transition.1","transition_type":"SMPTE_Dissolve",'
    printf '"out_offset":%s%s}' "$(frames 12)" "${1:-}"
}

# The member of a timeline's start: FRAME.
start() {
    printf ',"global_start_time":%s' "$(frames "$1")"
}

# A timeline of one track: MEMBERS of the timeline, ITEM..
one_track() {
    printf '{"OTIO_SCHEMA":"Timeline.1","tracks":%s%s}\n' "$(
        shift
        composition Stack.1 '' "$(track "$@")"
    )" "$1"
}
