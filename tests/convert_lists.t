Lists are read and written again, each in its one spelling.

  $ . "$TESTDIR/setup.sh"

A list with an event, and the spelling of it:

  $ cat > a.edl <<'END'
  > TITLE: ONE
  > FCM: NON-DROP FRAME
  > 
  > 7 TAPE1 V C 01:00:00:00 01:00:02:00 00:00:10:00 00:00:12:00
  > END
  $ otio convert --to edl a.edl
  TITLE: ONE
  FCM: NON-DROP FRAME
  001  TAPE1    V     C        01:00:00:00 01:00:02:00 00:00:10:00 00:00:12:00

Options may stand after the file:

  $ otio convert a.edl --to edl
  TITLE: ONE
  FCM: NON-DROP FRAME
  001  TAPE1    V     C        01:00:00:00 01:00:02:00 00:00:10:00 00:00:12:00

A list without events, whose one line has no end:

  $ printf 'TITLE: EMPTY' > empty.edl
  $ otio convert --to edl empty.edl
  TITLE: EMPTY
  FCM: NON-DROP FRAME

A list of drop-frame timecode is written so, with the option `--drop` too:

  $ cat > drop.edl <<'END'
  > FCM: DROP FRAME
  > 1 T1 V C 00:00:00:00 00:00:00:10 01:00:00:00 01:00:00:10
  > END
  $ otio convert --rate 29.97 --to edl drop.edl
  FCM: DROP FRAME
  001  T1       V     C        00:00:00;00 00:00:00;10 01:00:00;00 01:00:00;10
  $ otio convert --rate 29.97 --drop --to edl drop.edl
  FCM: DROP FRAME
  001  T1       V     C        00:00:00;00 00:00:00;10 01:00:00;00 01:00:00;10

An event of three channels is written as three:

  $ printf '1 T1 AA/V C 00:00:00:00 00:00:01:00 00:00:00:00 00:00:01:00' > sound.edl
  $ otio convert --to edl sound.edl
  FCM: NON-DROP FRAME
  001  T1       V     C        00:00:00:00 00:00:01:00 00:00:00:00 00:00:01:00
  002  T1       A     C        00:00:00:00 00:00:01:00 00:00:00:00 00:00:01:00
  003  T1       A2    C        00:00:00:00 00:00:01:00 00:00:00:00 00:00:01:00

999 events are written, and no more without `--wide`. `events COUNT` writes a list of events of a
frame:

  $ events() {
  >     python3 - "$1" <<'END'
  > import sys
  > for frame in range(int(sys.argv[1])):
  >     start, end = (f"00:00:{at // 24:02}:{at % 24:02}" for at in (frame, frame + 1))
  >     print("1 T1 V C 00:00:00:00 00:00:00:01", start, end)
  > END
  > }
  $ events 999 > many.edl
  $ otio convert --to edl many.edl > out
  $ wc -l < out
  1000
  $ head -n 3 out
  FCM: NON-DROP FRAME
  001  T1       V     C        00:00:00:00 00:00:00:01 00:00:00:00 00:00:00:01
  002  T1       V     C        00:00:00:00 00:00:00:01 00:00:00:01 00:00:00:02
  $ tail -n 1 out
  999  T1       V     C        00:00:00:00 00:00:00:01 00:00:41:14 00:00:41:15
  $ events 1000 > many.edl
  $ otio convert --to edl many.edl
  otio: many.edl: N13 Events at .
  [1]

The output is for what is written, and standard error for the message of a refusal:

  $ otio convert --to edl a.edl 2> message | tail -n 1
  001  TAPE1    V     C        01:00:00:00 01:00:02:00 00:00:10:00 00:00:12:00
  $ cat message
  $ printf '{"OTIO_SCHEMA":"Clip.1","name":"s","media_reference":null}' > c.otio
  $ otio convert --to edl c.otio 2> message
  [1]
  $ cat message
  otio: c.otio: G3 NotTimeline

A file that is not there:

  $ otio convert --to edl gone.edl
  otio: gone.edl: absent
  [3]

An event whose source and record lengths differ:

  $ printf '1 T1 V C 00:00:00:00 00:00:01:00 00:00:00:00 00:00:02:00' > unequal.edl
  $ otio convert --to edl unequal.edl
  otio: unequal.edl: L4 Unequal at 1
  [1]

A line that has another form than an event:

  $ cat > form.edl <<'END'
  > * first
  > 1 T1 V C 00:00:00:00
  > END
  $ otio convert --to edl form.edl
  otio: form.edl: L1 Form at 2
  [1]

The same, with a line after it:

  $ cat > form.edl <<'END'
  > TITLE: E
  > 1 T1 V C 00:00:00:00
  > * after
  > END
  $ otio convert --to edl form.edl
  otio: form.edl: L1 Form at 2
  [1]

100 frames a second have no timecode. A label is refused as it is read, a list without labels as it
is written:

  $ otio convert --rate 100 --to edl drop.edl
  otio: drop.edl: L2 Timecode at 2
  [1]
  $ printf 'TITLE: E' > title.edl
  $ otio convert --rate 100 --to edl title.edl
  otio: title.edl: N15 NoTimecode at .
  [1]

24 frames a second have no drop-frame timecode:

  $ cat > plain.edl <<'END'
  > 1 T1 V C 00:00:00:00 00:00:00:10 01:00:00:00 01:00:00:10
  > END
  $ otio convert --drop --to edl plain.edl
  otio: plain.edl: N15 NoTimecode at .
  [1]

Drop-frame timecode has fewer frames in a day, and none for the last labels without it:

  $ printf '1 T1 V C 00:00:00:00 00:00:00:01 23:59:59:28 23:59:59:29' > day.edl
  $ otio convert --rate 29.97 --drop --to edl day.edl
  otio: day.edl: L10 Day at 1
  [1]
