Timelines at the limits and past them.

  $ . "$TESTDIR/setup.sh"
  $ . "$TESTDIR/timelines.sh"

A track is a million seconds long at most:

  $ timeline "$(track "$(gap 24000000)")" > t.otio
  $ otio stat t.otio
  rate 24.0
  start 0
  length 24000000
  tracks 1
  stacks 0
  clips 0
  gaps 1
  transitions 0

A frame more is refused, in an item of its own and within one:

  $ timeline "$(track "$(gap 24000000)" "$(gap 1)")" > t.otio
  $ otio stat t.otio
  otio: t.otio: K4 Long at 0
  [1]
  $ timeline "$(track "$(gap 24000001)")" > t.otio
  $ otio stat t.otio
  otio: t.otio: S6 Range at 0/0
  [1]

The speeds of a clip come to 1000 together at most, either way:

  $ timeline "$(track "$(clip a.mov 0 2 "$(speeds 500 -2.0)")")" > t.otio
  $ otio frames --start 1 --count 1 t.otio
  1 0 url:"a.mov"@-1000

Two that come to more, and one that is more by itself:

  $ timeline "$(track "$(clip a.mov 0 2 "$(speeds 1000 1.000001)")")" > t.otio
  $ otio frames t.otio
  otio: t.otio: K5 Speed at 0/0
  [1]
  $ timeline "$(track "$(clip a.mov 0 2 "$(speeds 1000.000001 0)")")" > t.otio
  $ otio frames t.otio
  otio: t.otio: S4 Field at 0/0 time_scalar
  [1]

Speeds are rounded to millionths, and this one to 1000:

  $ timeline "$(track "$(clip a.mov 0 2 "$(speeds 1000.0000005 1)")")" > t.otio
  $ otio frames --start 1 --count 1 t.otio
  1 0 url:"a.mov"@1000

Stacks within each other. 63 of them make 127 levels of lists and objects, the most that a text has:

  $ levels() {
  >     printf '{"OTIO_SCHEMA":"Timeline.1","tracks":'
  >     yes '{"OTIO_SCHEMA":"Stack.1","children":[' | head -n "$1" | tr -d '\n'
  >     yes ']}' | head -n "$1" | tr -d '\n'
  >     printf '}'
  > }
  $ levels 63 > t.otio
  $ otio stat t.otio
  rate 24.0
  start 0
  length 0
  tracks 0
  stacks 62
  clips 0
  gaps 0
  transitions 0
  $ levels 64 > t.otio
  $ otio stat t.otio
  otio: t.otio: J3 Depth at 2368
  [1]

A timeline has 100000 items at most, of which a track is one:

  $ gaps() {
  >     timeline "$(track "$(yes '{"OTIO_SCHEMA":"Gap.1"}' | head -n "$1" | paste -s -d ,)")"
  > }
  $ gaps 100000 > t.otio
  $ otio convert t.otio
  otio: t.otio: G1 Items
  [1]

An edit leaves no more, and neither do timelines one after another:

  $ gaps 99999 > t.otio
  $ timeline "$(track "$(clip a.mov 0 1)")" > a.otio
  $ cat > s.txt <<'END'
  > insert 0 0 gap 1
  > END
  $ otio edit --script s.txt t.otio
  otio: s.txt: E10 Items at 1
  [1]
  $ otio cat t.otio a.otio
  otio: t.otio: G1 Items
  [1]
