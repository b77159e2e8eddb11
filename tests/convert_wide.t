Wide lists: reels of more than eight bytes, and more than 999 events.

  $ . "$TESTDIR/setup.sh"

A list with a reel of 15 bytes is written wide:

  $ cat > w.edl <<'END'
  > 1000 A001C003_240101 V C 01:00:00:00 01:00:01:00 00:00:00:00 00:00:01:00
  > END
  $ otio convert --to edl --wide w.edl
  FCM: NON-DROP FRAME
  000001  A001C003_240101                  V     C        01:00:00:00 01:00:01:00 00:00:00:00 00:00:01:00

It is refused without `--wide`:

  $ otio convert --to edl w.edl
  otio: w.edl: L11 Reel at 1
  [1]

The second event has such a reel, and the first one a label past the day of drop-frame timecode.
The reel is the first fault, and with `--wide` it is none:

  $ cat > late.edl <<'END'
  > 1 T1 V C 00:00:00:00 00:00:00:01 23:59:59:28 23:59:59:29
  > 2 A001C003_240101 V C 00:00:00:00 00:00:00:01 00:00:00:00 00:00:00:01
  > END
  $ otio convert --to edl --rate 29.97 --drop late.edl
  otio: late.edl: L11 Reel at 2
  [1]
  $ otio convert --to edl --rate 29.97 --drop --wide late.edl
  otio: late.edl: L10 Day at 1
  [1]

`--wide` has no effect on JSON:

  $ printf '1' > one.json
  $ otio convert --to json --wide one.json
  1

A timeline of a track of equal clips, each of a second. 999 of them are a list, also a narrow one:

  $ cat > clips.py <<'END'
  > import json
  > import sys
  > 
  > def time(frames):
  >     return {"OTIO_SCHEMA": "RationalTime.1", "rate": 24, "value": frames}
  > 
  > span = {"OTIO_SCHEMA": "TimeRange.1", "start_time": time(0), "duration": time(24)}
  > clip = {"OTIO_SCHEMA": "Clip.2", "metadata": {"cmx_3600": {"reel": "A1"}}, "source_range": span}
  > track = {"OTIO_SCHEMA": "Track.1", "children": [clip] * int(sys.argv[1])}
  > stack = {"OTIO_SCHEMA": "Stack.1", "children": [track]}
  > json.dump({"OTIO_SCHEMA": "Timeline.1", "tracks": stack}, sys.stdout)
  > END
  $ python3 clips.py 999 > t.otio
  $ otio convert --to edl t.otio > out
  $ wc -l < out
  1000
  $ tail -n 1 out
  999  A1       V     C        00:00:00:00 00:00:01:00 00:16:38:00 00:16:39:00

1000 of them are a wide list alone:

  $ python3 clips.py 1000 > t.otio
  $ otio convert --to edl t.otio
  otio: t.otio: N13 Events at .
  [1]
  $ otio convert --to edl --wide t.otio > out
  $ wc -l < out
  1001
  $ tail -n 1 out
  001000  A1                               V     C        00:00:00:00 00:00:01:00 00:16:39:00 00:16:40:00
