Scripts are refused by the first command that is, and nothing is written.

  $ . "$TESTDIR/setup.sh"
  $ . "$TESTDIR/timelines.sh"

A media list, and a timeline of three tracks:

  $ printf 'W\t24\t0\t240\tw.mov\n' > m.txt
  $ three_tracks > x.otio

More edits are undone than were made:

  $ cat > s.txt <<'END'
  > overwrite 0 40 clip w W 0 10
  > overwrite 0 100 clip w W 0 5
  > undo
  > undo
  > undo
  > END
  $ otio edit --script s.txt --media m.txt x.otio
  otio: s.txt: H1 NothingDone at 5
  [1]

An edit is of no item:

  $ cat > s.txt <<'END'
  > slice 0 10
  > slice 0 9999
  > END
  $ otio edit --script s.txt --media m.txt x.otio
  otio: s.txt: E4 NoItem at 2
  [1]

Nothing was undone that could be done again, and no later line is read:

  $ cat > s.txt <<'END'
  > 
  > redo
  > # no reel is tried
  > insert 0 0 clip v V 0 1
  > END
  $ otio edit --script s.txt --media m.txt x.otio
  otio: s.txt: H2 NothingUndone at 2
  [1]

No medium of the list has the reel:

  $ cat > s.txt <<'END'
  > insert 9 9 clip v V 0 1
  > END
  $ otio edit --script s.txt --media m.txt x.otio
  otio: s.txt: P2 NoReel at 1
  [1]

A number is too large:

  $ cat > s.txt <<'END'
  > insert 9 99999999 clip w W 0 1
  > END
  $ otio edit --script s.txt --media m.txt x.otio
  otio: s.txt: P1 Line at 1
  [1]

No track is at the place:

  $ cat > s.txt <<'END'
  > insert 9 9 gap 1
  > END
  $ otio edit --script s.txt --media m.txt x.otio
  otio: s.txt: E1 Place at 1
  [1]

A word is no command:

  $ cat > s.txt <<'END'
  > slice 0 10
  > splice 0 10
  > END
  $ otio edit --script s.txt --media m.txt x.otio
  otio: s.txt: P1 Line at 2
  [1]

An edit in a stack that has a speed and no range of its own:

  $ nested_track '' > x.otio
  $ cat > s.txt <<'END'
  > insert 0/1/0 6 clip w W 50 4
  > END
  $ otio edit --script s.txt --media m.txt x.otio
  otio: s.txt: E8 Unpinned at 1 0/1
  [1]
