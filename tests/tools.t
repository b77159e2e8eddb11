Timelines that are cut to a window, joined, laid over each other, flattened and listed.

  $ . "$TESTDIR/setup.sh"
  $ . "$TESTDIR/timelines.sh"

A window of two clips of 10 frames:

  $ timeline "$(track "$(clip a.mov 0 10)" "$(clip b.mov 0 10)")" > ab.otio
  $ otio tool --trim 4,12 ab.otio > y.otio
  $ otio frames --start 9 --count 2 y.otio
  9 0 url:"a.mov"@9
  10 0 url:"b.mov"@0
  $ otio frames --start 3 --count 2 y.otio
  3 0 -
  4 0 url:"a.mov"@4
  $ otio stat y.otio
  rate 24.0
  start 4
  length 8
  tracks 1
  stacks 0
  clips 2
  gaps 0
  transitions 0

Timelines one after another, of clips of 10 and of 5 frames:

  $ timeline "$(track "$(clip a.mov 0 10)")" > a.otio
  $ timeline "$(track "$(clip b.mov 0 5)")" > b.otio
  $ otio cat a.otio b.otio > y.otio
  $ otio frames --start 9 --count 2 y.otio
  9 0 url:"a.mov"@9
  10 0 url:"b.mov"@0
  $ otio tool --concat b.otio a.otio > y.otio
  $ otio frames --start 4 --count 2 y.otio
  4 0 url:"b.mov"@4
  5 0 url:"a.mov"@0

A list among them, without media and with media:

  $ cat > a.edl <<'END'
  > 1 A1 V C 00:00:00:00 00:00:00:10 00:00:00:00 00:00:00:10
  > END
  $ printf 'A1\t24\t0\t240\ta1.mov\n' > m.txt
  $ otio cat a.edl b.otio > y.otio
  $ otio frames --start 9 --count 2 y.otio
  9 0 reel:"A1"@9
  10 0 url:"b.mov"@0
  $ otio cat --media m.txt b.otio a.edl > y.otio
  $ otio frames --start 4 --count 2 y.otio
  4 0 url:"b.mov"@4
  5 0 url:"a1.mov"@0

Timelines above each other:

  $ otio tool --stack a.otio b.otio > y.otio
  $ otio frames --start 4 --count 2 y.otio
  4 0 url:"a.mov"@4
  4 1 url:"b.mov"@4
  5 0 url:"a.mov"@5
  5 1 -

The upper of two tracks starts with a gap of 20 frames, and its clip has 30. One track of both:

  $ timeline "$(track "$(clip a.mov 0 100)")" \
  >     "$(track "$(gap 20)" "$(clip c.mov 0 30)")" > layers.otio
  $ otio tool --flatten video layers.otio > y.otio
  $ otio frames --start 19 --count 2 y.otio
  19 0 url:"a.mov"@19
  20 0 url:"c.mov"@0
  $ otio tool --flatten all layers.otio > y.otio
  $ otio frames --start 49 --count 2 y.otio
  49 0 url:"c.mov"@29
  50 0 url:"a.mov"@50

The tracks may be kept below it:

  $ otio tool --flatten video --keep-flattened-tracks layers.otio > y.otio
  $ otio tool --list-tracks y.otio
  track 0 "Video" ""
  track 1 "Video" ""
  track 2 "Video" "Flattened"

Three tracks, first without their transitions, then only the track of sound:

  $ three_tracks > x.otio
  $ otio tool --remove-transitions x.otio > y.otio
  $ otio frames --child 0 --start 86447 --count 2 y.otio
  86447 0 url:"a.mov"@71
  86448 0 url:"b.mov"@100
  $ otio tool --audio-only x.otio > y.otio
  $ otio tool --list-media y.otio
  media 0/0 url:"a.wav"

What timelines and lists have:

  $ otio stat x.otio
  rate 24.0
  start 86400
  length 96
  tracks 3
  stacks 0
  clips 4
  gaps 1
  transitions 1
  $ otio stat a.edl
  rate 24.0
  start 0
  length 10
  tracks 1
  stacks 0
  clips 1
  gaps 0
  transitions 0

Listings stand in one order, whatever the order of the options is:

  $ otio tool --list-media --list-clips --list-tracks x.otio
  track 0 "Video" ""
  track 1 "Video" ""
  track 2 "Audio" ""
  clip 0/0 ""
  clip 0/2 ""
  clip 1/1 ""
  clip 2/0 ""
  media 0/0 url:"a.mov"
  media 0/2 url:"b.mov"
  media 1/1 url:"c.mov"
  media 2/0 url:"a.wav"
