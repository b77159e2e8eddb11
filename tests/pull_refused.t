What `pull` refuses, and command lines that are none.

  $ . "$TESTDIR/setup.sh"
  $ . "$TESTDIR/timelines.sh"

Two gaps of a root, neither of which has too many frames; the second is rounded up:

  $ timeline "$(gap 5000000)" "$(gap 5000000.5)" > gaps.otio
  $ otio pull gaps.otio
  otio: gaps.otio: U1 Frames
  [1]

A clip without a length:

  $ timeline '{"OTIO_SCHEMA":"Clip.2"}' > n.otio
  $ otio pull n.otio
  otio: n.otio: K1 NoLength at 0
  [1]

An object that is no timeline:

  $ printf '%s' '{"OTIO_SCHEMA":"SerializableCollection.1"}' > l.otio
  $ otio pull l.otio
  otio: l.otio: G3 NotTimeline
  [1]

Media at another rate than that of the list:

  $ cat > a.edl <<'END'
  > 1 T1 V C 00:00:01:00 00:00:02:00 01:00:00:00 01:00:01:00
  > END
  $ printf 'T1\t24\t0\t50\tt1.mov\n' > m.txt
  $ otio pull --rate 30 --media m.txt a.edl
  otio: a.edl: Q3 Rate at 1
  [1]

A file that is not there:

  $ otio pull gone.otio
  otio: gone.otio: absent
  [3]

Words that are no command line:

  $ three_tracks > x.otio
  $ otio pull 2> usage
  [2]
  $ head -c 28 usage
  otio: usage
    otio convert [ (no-eol)
  $ wc -l < usage
  10
  $ otio pull --handles 10001 x.otio 2> message
  [2]
  $ cmp message usage
  $ otio pull --handles -1 x.otio 2> message
  [2]
  $ cmp message usage
  $ otio pull --handles 1 --handles 1 x.otio 2> message
  [2]
  $ cmp message usage
  $ otio pull --drop a.edl 2> message
  [2]
  $ cmp message usage
  $ otio pull --rate 29.5 a.edl 2> message
  [2]
  $ cmp message usage
  $ otio pull x.otio x.otio 2> message
  [2]
  $ cmp message usage
