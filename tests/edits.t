What scripts make of timelines, shown by frames at the edges of each change.

  $ . "$TESTDIR/setup.sh"
  $ . "$TESTDIR/timelines.sh"

A media list, and a timeline of three tracks:

  $ printf 'W\t24\t0\t240\tw.mov\n' > m.txt
  $ three_tracks > x.otio

A clip is put over the end of a clip and the start of the next:

  $ cat > s.txt <<'END'
  > overwrite 0 40 clip w W 0 10
  > END
  $ otio edit --media m.txt x.otio --script s.txt > y.otio
  $ otio frames --child 0 --start 86439 --count 2 y.otio
  86439 0 url:"a.mov"@63
  86440 0 url:"w.mov"@0

A dissolve that is covered is removed. A line may be a comment:

  $ cat > s.txt <<'END'
  > # a dissolve goes
  > overwrite 0 40 clip w W 0 10
  > END
  $ otio edit --media m.txt x.otio --script s.txt > y.otio
  $ otio frames --child 0 --start 86449 --count 2 y.otio
  86449 0 url:"w.mov"@9
  86450 0 url:"b.mov"@102

A second clip is put after the end of the track, and a gap fills the frames between:

  $ cat > s.txt <<'END'
  > overwrite 0 40 clip w W 0 10
  > overwrite 0 100 clip w W 0 5
  > END
  $ otio edit --media m.txt x.otio --script s.txt > y.otio
  $ otio frames --child 0 --start 86495 --count 2 y.otio
  86495 0 url:"b.mov"@147
  86496 0 -
  $ otio frames --child 0 --start 86499 --count 2 y.otio
  86499 0 -
  86500 0 url:"w.mov"@0

What is undone is done again by `redo`:

  $ cat > s.txt <<'END'
  > overwrite 0 40 clip w W 0 10
  > undo
  > redo
  > END
  $ otio edit --media m.txt x.otio --script s.txt > y.otio
  $ otio frames --child 0 --start 86449 --count 2 y.otio
  86449 0 url:"w.mov"@9
  86450 0 url:"b.mov"@102

A slip stops at the end of the media, and at their start:

  $ cat > s.txt <<'END'
  > slip 0 0 500
  > END
  $ otio edit --media m.txt x.otio --script s.txt > y.otio
  $ otio frames --child 0 --start 86400 --count 1 y.otio
  86400 0 url:"a.mov"@192
  $ cat > s.txt <<'END'
  > slip 0 0 -500
  > END
  $ otio edit --media m.txt x.otio --script s.txt > y.otio
  $ otio frames --child 0 --start 86400 --count 1 y.otio
  86400 0 url:"a.mov"@0

A trim of the start of a clip at twice its speed stops at the start of its media:

  $ cat > s.txt <<'END'
  > trim 1 72 -80 0
  > END
  $ otio edit --media m.txt x.otio --script s.txt > y.otio
  $ otio frames --child 1 --start 86451 --count 3 y.otio
  86451 1 -
  86452 1 url:"c.mov"@0
  86453 1 url:"c.mov"@2

The last line of a script may have no end:

  $ printf 'trim 1 72 -80 0' > s.txt
  $ otio edit --media m.txt x.otio --script s.txt > y.otio
  $ otio frames --child 1 --start 86483 --count 2 y.otio
  86483 1 url:"c.mov"@62
  86484 1 -

A stack at twice its speed, which has a range. In its track a clip is inserted:

  $ nested_track ",\"source_range\":$(range 0 20)" > x.otio
  $ cat > s.txt <<'END'
  > insert 0/1/0 6 clip w W 50 4
  > END
  $ otio edit --media m.txt x.otio --script s.txt > y.otio
  $ otio frames --start 12 --count 4 y.otio
  12 0 url:"q.mov"@4
  13 0 url:"w.mov"@50
  14 0 url:"w.mov"@52
  15 0 url:"q.mov"@6
  $ otio frames --start 29 --count 2 y.otio
  29 0 url:"r.mov"@4
  30 0 url:"z.mov"@0

Fills of a gap of 20 frames after 10 frames of a clip:

  $ timeline "$(track "$(clip d.mov 0 10)" "$(gap 20)" "$(clip e.mov 100 30)")" > x.otio
  $ cat > s.txt <<'END'
  > fill 0 12 source clip w W 0 30
  > END
  $ otio edit --media m.txt x.otio --script s.txt > y.otio
  $ otio frames --start 39 --count 2 y.otio
  39 0 url:"w.mov"@29
  40 0 url:"e.mov"@110
  $ cat > s.txt <<'END'
  > fill 0 12 sequence clip w W 0 30
  > END
  $ otio edit --media m.txt x.otio --script s.txt > y.otio
  $ otio frames --start 29 --count 2 y.otio
  29 0 url:"w.mov"@19
  30 0 url:"e.mov"@100
  $ cat > s.txt <<'END'
  > fill 0 12 fit clip w W 0 30
  > END
  $ otio edit --media m.txt x.otio --script s.txt > y.otio
  $ otio frames --start 9 --count 4 y.otio
  9 0 url:"d.mov"@9
  10 0 url:"w.mov"@0
  11 0 url:"w.mov"@1
  12 0 url:"w.mov"@3
  $ otio frames --start 29 --count 2 y.otio
  29 0 url:"w.mov"@28
  30 0 url:"e.mov"@100

Edits of the edges of three clips:

  $ timeline "$(track "$(clip d.mov 50 10)" "$(clip e.mov 100 20)" "$(clip h.mov 0 10)")" > x.otio
  $ cat > s.txt <<'END'
  > slide 0 15 4
  > END
  $ otio edit --media m.txt x.otio --script s.txt > y.otio
  $ otio frames --start 13 --count 2 y.otio
  13 0 url:"d.mov"@63
  14 0 url:"e.mov"@100
  $ cat > s.txt <<'END'
  > ripple 0 15 3 -5
  > END
  $ otio edit --media m.txt x.otio --script s.txt > y.otio
  $ otio frames --start 9 --count 2 y.otio
  9 0 url:"d.mov"@59
  10 0 url:"e.mov"@103
  $ otio frames --start 21 --count 2 y.otio
  21 0 url:"e.mov"@114
  22 0 url:"h.mov"@0
  $ cat > s.txt <<'END'
  > roll 0 15 -2 4
  > END
  $ otio edit --media m.txt x.otio --script s.txt > y.otio
  $ otio frames --start 7 --count 2 y.otio
  7 0 url:"d.mov"@57
  8 0 url:"e.mov"@98
  $ otio frames --start 33 --count 2 y.otio
  33 0 url:"e.mov"@123
  34 0 url:"h.mov"@4

A trim of a clip after a gap:

  $ timeline "$(track "$(gap 3)" "$(clip d.mov 50 10)")" > x.otio
  $ cat > s.txt <<'END'
  > trim 0 3 -8 0
  > END
  $ otio edit --media m.txt x.otio --script s.txt > y.otio
  $ otio frames --count 1 y.otio
  0 0 url:"d.mov"@47
