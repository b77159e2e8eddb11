What `cat`, `stat` and `tool` refuse, and command lines that are none.

  $ . "$TESTDIR/setup.sh"
  $ . "$TESTDIR/timelines.sh"

Timelines, one of a dissolve that goes past the end of its second clip:

  $ timeline "$(track "$(clip a.mov 0 10)")" > a.otio
  $ timeline "$(track "$(clip b.mov 0 5)")" > b.otio
  $ timeline "$(track "$(clip a.mov 0 10)" "$(clip b.mov 0 10)")" > ab.otio
  $ timeline "$(track "$(clip a.mov 0 10)" "$(dissolve 2 8)" "$(clip b.mov 0 3)")" > late.otio

The first timeline that is not valid is named:

  $ otio cat late.otio a.otio
  otio: late.otio: X2 Transition at 0/1
  [1]
  $ otio tool --concat a.otio late.otio b.otio
  otio: late.otio: X2 Transition at 0/1
  [1]

A step after the first names the first file:

  $ otio tool --stack --flatten video a.otio late.otio
  otio: a.otio: X2 Transition at 1/1
  [1]

The label of a window is none at its rate, and a window ends before it starts:

  $ otio tool --trim 00:00:00:24,12 ab.otio
  otio: ab.otio: X4 Range
  [1]
  $ otio tool --trim 12,4 ab.otio
  otio: ab.otio: X4 Range
  [1]

A file that is not there is named, and no later one:

  $ otio cat a.otio gone.otio late.otio
  otio: gone.otio: absent
  [3]

Lines that no command has:

  $ three_tracks > x.otio
  $ otio tool --concat --stack a.otio b.otio 2> usage
  [2]
  $ head -c 28 usage
  otio: usage
    otio convert [ (no-eol)
  $ wc -l < usage
  10
  $ otio tool a.otio b.otio 2> message
  [2]
  $ cmp message usage
  $ otio tool --video-only --audio-only x.otio 2> message
  [2]
  $ cmp message usage
  $ otio cat - a.otio - < b.otio 2> message
  [2]
  $ cmp message usage
  $ otio stat a.otio b.otio 2> message
  [2]
  $ cmp message usage
