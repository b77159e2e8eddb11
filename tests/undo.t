Edits that are all undone leave the timeline as it is written without them.

  $ . "$TESTDIR/setup.sh"
  $ . "$TESTDIR/timelines.sh"

Two edits are undone:

  $ cat > s.txt <<'END'
  > overwrite 0 40 clip w W 0 10
  > overwrite 0 100 clip w W 0 5
  > undo
  > undo
  > END
  $ printf 'W\t24\t0\t240\tw.mov\n' > m.txt
  $ three_tracks > x.otio
  $ otio edit --media m.txt --script s.txt x.otio > undone.otio
  $ otio convert x.otio > written.otio
  $ cmp undone.otio written.otio
