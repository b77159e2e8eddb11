Lists of the source frames that a timeline shows, by media and in ranges.

  $ . "$TESTDIR/setup.sh"
  $ . "$TESTDIR/timelines.sh"

Both sides of a dissolve, and a clip at twice its speed:

  $ three_tracks > x.otio
  $ otio pull x.otio
  pull url:"a.mov" 24.0 24 54
  pull url:"b.mov" 24.0 94 54
  pull url:"c.mov" 24.0 40 1
  pull url:"c.mov" 24.0 42 1
  pull url:"c.mov" 24.0 44 1
  pull url:"c.mov" 24.0 46 1
  pull url:"c.mov" 24.0 48 1
  pull url:"c.mov" 24.0 50 1
  pull url:"c.mov" 24.0 52 1
  pull url:"c.mov" 24.0 54 1
  pull url:"c.mov" 24.0 56 1
  pull url:"c.mov" 24.0 58 1
  pull url:"c.mov" 24.0 60 1
  pull url:"c.mov" 24.0 62 1
  pull url:"a.wav" 24.0 0 96

No handles are the default. Handles join frames that are apart:

  $ otio pull x.otio > none
  $ otio pull x.otio --handles 0 > 0
  $ cmp 0 none
  $ otio pull --handles 1 x.otio
  pull url:"a.mov" 24.0 23 56
  pull url:"b.mov" 24.0 93 56
  pull url:"c.mov" 24.0 39 25
  pull url:"a.wav" 24.0 0 97

A stack at twice its speed, between two clips:

  $ nested_track ",\"source_range\":$(range 0 20)" > nested.otio
  $ otio pull --handles 1 nested.otio
  pull url:"p.mov" 24.0 0 11
  pull url:"q.mov" 24.0 0 30
  pull url:"r.mov" 24.0 0 10
  pull url:"z.mov" 24.0 0 11

Frames that a track above covers are not listed:

  $ timeline "$(composition Stack.1 '' \
  >     "$(track "$(clip a.mov 0 50)")" \
  >     "$(track "$(gap 20)" "$(clip b.mov 0 10)")")" > covered.otio
  $ otio pull --handles 1 covered.otio
  pull url:"a.mov" 24.0 0 21
  pull url:"a.mov" 24.0 29 22
  pull url:"b.mov" 24.0 0 11

`inner MEMBERS ITEM` writes two clips in a track of these members, with this item between them. The
track has a range that starts later:

  $ inner() {
  >     timeline "$(track "$(composition Track.1 "$1" \
  >         "$(clip a.mov 10 12)" ${2:+"$2"} "$(clip b.mov 50 20)")")"
  > }
  $ inner ",\"source_range\":$(range 3 20)" > later.otio
  $ otio pull later.otio
  pull url:"a.mov" 24.0 13 9
  pull url:"b.mov" 24.0 50 11

The same, with a dissolve between the clips:

  $ inner ",\"source_range\":$(range 3 20)" "$(dissolve 2 3)" > mixed.otio
  $ otio pull mixed.otio
  pull url:"a.mov" 24.0 13 12
  pull url:"b.mov" 24.0 48 13

The track is at twice its speed:

  $ inner "$(speeds 2.0)" > twice.otio
  $ otio pull twice.otio
  pull url:"a.mov" 24.0 10 1
  pull url:"a.mov" 24.0 12 1
  pull url:"a.mov" 24.0 14 1
  pull url:"a.mov" 24.0 16 1
  pull url:"a.mov" 24.0 18 1
  pull url:"a.mov" 24.0 20 1
  pull url:"b.mov" 24.0 50 1
  pull url:"b.mov" 24.0 52 1
  pull url:"b.mov" 24.0 54 1
  pull url:"b.mov" 24.0 56 1
  pull url:"b.mov" 24.0 58 1
  pull url:"b.mov" 24.0 60 1
  pull url:"b.mov" 24.0 62 1
  pull url:"b.mov" 24.0 64 1
  pull url:"b.mov" 24.0 66 1
  pull url:"b.mov" 24.0 68 1
