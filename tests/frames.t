`frames` shows what each track of a timeline shows at a frame.

  $ . "$TESTDIR/setup.sh"
  $ . "$TESTDIR/timelines.sh"

A timeline that starts at frame 86400: two clips of 48 frames with a dissolve of 12 between them, a
clip of 12 frames at twice its speed after a gap of 72, and sound:

  $ three_tracks > x.otio

A frame is asked for by its number or by its timecode, and options stand before or after the file:

  $ otio frames --start 86442 --count 1 x.otio
  86442 0 mix(dissolve 0/1 url:"a.mov"@66 url:"b.mov"@94)
  86442 1 -
  86442 2 url:"a.wav"@42
  $ otio frames x.otio --count 1 --start 01:00:01:18
  86442 0 mix(dissolve 0/1 url:"a.mov"@66 url:"b.mov"@94)
  86442 1 -
  86442 2 url:"a.wav"@42

One track alone, and the last frame of one:

  $ otio frames --child 1 --start 86471 --count 3 x.otio
  86471 1 -
  86472 1 url:"c.mov"@40
  86473 1 url:"c.mov"@42
  $ otio frames --child 0 --start 86495 x.otio
  86495 0 url:"b.mov"@147

A track that isn't there has no frames:

  $ otio frames --child 3 x.otio

All frames of all tracks:

  $ otio frames -o rows.txt x.otio
  $ wc -l < rows.txt
  288
  $ grep -E '^(86453|86454) 0 |^(86471|86472|86473|86483|86484) 1 ' rows.txt
  86453 0 mix(dissolve 11/12 url:"a.mov"@77 url:"b.mov"@105)
  86454 0 url:"b.mov"@106
  86471 1 -
  86472 1 url:"c.mov"@40
  86473 1 url:"c.mov"@42
  86483 1 url:"c.mov"@62
  86484 1 -

An object that is no timeline is refused, on the stream of messages alone:

  $ cat > c.otio <<'END'
  > {"OTIO_SCHEMA": "Clip.1", "name": "s", "media_reference": null}
  > END
  $ otio frames c.otio 2> told
  [1]
  $ cat told
  otio: c.otio: G3 NotTimeline
  $ echo '{"OTIO_SCHEMA": "SerializableCollection.1"}' > l.otio
  $ otio frames l.otio
  otio: l.otio: G3 NotTimeline
  [1]

A clip without a length is refused. A timeline that begins between two frames is refused before a
`--start` that is no timecode of its rate:

  $ cat > n.otio <<'END'
  > {
  >   "OTIO_SCHEMA": "Timeline.1",
  >   "tracks": {
  >     "OTIO_SCHEMA": "Stack.1",
  >     "children": [{"OTIO_SCHEMA": "Track.1", "children": [{"OTIO_SCHEMA": "Clip.2"}]}]
  >   }
  > }
  > END
  $ otio frames n.otio
  otio: n.otio: K1 NoLength at 0
  [1]
  $ cat > k.otio <<END
  > {
  >   "OTIO_SCHEMA": "Timeline.1",
  >   "global_start_time": $(frames 0.5),
  >   "tracks": {"OTIO_SCHEMA": "Stack.1"}
  > }
  > END
  $ otio frames --start 01:00:01:24 k.otio
  otio: k.otio: K2 StartOffFrame
  [1]
  $ otio frames --start 01:00:01:24 x.otio
  otio: x.otio: X4 Range
  [1]

A file that can't be read as an object, and one that isn't there:

  $ echo '{"OTIO_SCHEMA": "Clip.3"}' > newer.otio
  $ otio frames newer.otio
  otio: newer.otio: S3 Newer at .
  [1]
  $ printf '[1,]' > comma.json
  $ otio frames comma.json
  otio: comma.json: J1 Syntax at 3
  [1]
  $ otio frames gone.otio
  otio: gone.otio: absent
  [3]

Where frames are refused, the output file stays as it was, and none is made:

  $ echo before > kept.txt
  $ otio frames -o kept.txt c.otio
  otio: c.otio: G3 NotTimeline
  [1]
  $ otio frames -o kept.txt n.otio
  otio: n.otio: K1 NoLength at 0
  [1]
  $ otio frames -o kept.txt --start 01:00:01:24 x.otio
  otio: x.otio: X4 Range
  [1]
  $ cat kept.txt
  before
  $ otio frames -o new.txt c.otio
  otio: c.otio: G3 NotTimeline
  [1]
  $ test ! -e new.txt

Other words are answered by the usage text alone, which has ten lines:

  $ otio frames 2> usage
  [2]
  $ head -n 2 usage | cut -c 1-16
  otio: usage
    otio convert [
  $ wc -l < usage
  10
  $ otio frames --drop x.otio 2> told; echo $?; cmp told usage
  2
  $ otio frames --to json x.otio 2> told; echo $?; cmp told usage
  2
  $ otio frames --count 0 x.otio 2> told; echo $?; cmp told usage
  2
  $ otio frames --count 1000001 x.otio 2> told; echo $?; cmp told usage
  2
  $ otio frames --child -1 x.otio 2> told; echo $?; cmp told usage
  2
  $ otio frames --start 1:00:00:00 x.otio 2> told; echo $?; cmp told usage
  2
  $ otio frames --rate 29.5 x.edl 2> told; echo $?; cmp told usage
  2
  $ otio frames x.otio x.otio 2> told; echo $?; cmp told usage
  2
