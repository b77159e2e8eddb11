Scripts, names of files, and files at the limits and past them.

  $ . "$TESTDIR/setup.sh"
  $ . "$TESTDIR/timelines.sh"

A script has 10000 commands at most:

  $ timeline "$(track "$(clip a.mov 0 1)")" > a.otio
  $ yes undo | head -n 10000 > s.txt
  $ otio edit --script s.txt a.otio
  otio: s.txt: H1 NothingDone at 1
  [1]
  $ yes undo | head -n 10001 > s.txt
  $ otio edit --script s.txt a.otio
  otio: s.txt: P3 Many
  [1]

A command has 10000 files at most:

  $ printf '%s' '{"OTIO_SCHEMA":"Timeline.1"}' > -t
  $ otio tool --stack --list-tracks -- $(yes -- -t | head -n 10000)
  $ otio tool --stack --list-tracks -- $(yes -- -t | head -n 10001) 2> usage
  [2]
  $ head -c 28 usage
  otio: usage
    otio convert [ (no-eol)
  $ wc -l < usage
  10

`bytes BYTE COUNT` writes a file of equal bytes. A text of JSON has 32 mebibytes at
most:

  $ bytes() {
  >     head -c "$2" /dev/zero | tr '\0' "$1"
  > }
  $ bytes ' ' 33554432 > f
  $ otio convert f
  otio: f: J1 Syntax at 33554432
  [1]
  $ bytes ' ' 33554433 > f
  $ otio convert f
  otio: f: J4 Large
  [1]

A media list has 32 mebibytes at most:

  $ printf '1 A V C 00:00:00:00 00:00:00:01 00:00:00:00 00:00:00:01' > a.edl
  $ bytes '#' 33554432 > f
  $ otio convert --media f a.edl
  otio: a.edl: Q1 NoReel at 1
  [1]
  $ bytes '\n' 33554433 > f
  $ otio convert --media f a.edl
  otio: f: M6 Large
  [1]

A script has 32 mebibytes at most:

  $ timeline "$(track '{"OTIO_SCHEMA":"Clip.2"}')" > n.otio
  $ bytes '#' 33554432 > f
  $ otio edit --script f n.otio
  otio: n.otio: K1 NoLength at 0
  [1]
  $ bytes '\n' 33554433 > f
  $ otio edit --script f n.otio
  otio: f: P4 Large
  [1]

A log has 32 mebibytes at most:

  $ bytes ' ' 33554432 > f
  $ otio media f
  otio: f: A1 Form at 2
  [1]
  $ bytes '\n' 33554433 > f
  $ otio media f
  otio: f: A4 Large
  [1]
