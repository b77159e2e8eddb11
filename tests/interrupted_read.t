A read that a signal interrupts isn't the end of the file: the answer is that of the whole file.

  $ . "$TESTDIR/setup.sh"
  $ interrupted() {
  >     python3 "$TESTDIR/interrupted_read.py" "$@"
  > }

`interrupted FILE COMMAND..` gives half of FILE, interrupts the command three times while it waits
for more, and gives the rest. So it is for a plain read, whose numbers of bytes these are:

  $ cat > plain.py <<'END'
  > import ctypes, errno
  > libc = ctypes.CDLL(None, use_errno=True)
  > room = ctypes.create_string_buffer(100)
  > count = 1
  > while count:
  >     count = libc.read(0, room, 100)
  >     print(count if count >= 0 else errno.errorcode[ctypes.get_errno()], flush=True)
  > END
  $ printf '%s' '[true,null]' > two.json
  $ interrupted two.json python3 plain.py
  5
  EINTR
  EINTR
  EINTR
  6
  0

A JSON text:

  $ interrupted two.json "$OTIO" convert --to json -
  [
      true,
      null
  ]

A list whose first half is a list too:

  $ cat > two.edl <<'END'
  > 001  A1       V     C        00:00:01:00 00:00:02:00 01:00:00:00 01:00:01:00
  > 002  B1       V     C        00:00:03:00 00:00:04:00 01:00:01:00 01:00:02:00
  > END
  $ interrupted two.edl "$OTIO" convert --from edl --to edl -
  FCM: NON-DROP FRAME
  001  A1       V     C        00:00:01:00 00:00:02:00 01:00:00:00 01:00:01:00
  002  B1       V     C        00:00:03:00 00:00:04:00 01:00:01:00 01:00:02:00

A media list, which is judged at its end:

  $ printf 'A1\t24\t0\t1000\ta.mov\nB1\t24\t0\t1000\tb.mov\n' > two.txt
  $ interrupted two.txt "$OTIO" frames --media - --start 86423 --count 2 two.edl
  86423 0 url:"a.mov"@47
  86424 0 url:"b.mov"@72

A script of two commands:

  $ cat > cut.otio <<'END'
  > {"OTIO_SCHEMA":"Timeline.1","tracks":{"OTIO_SCHEMA":"Stack.1","children":[
  > {"OTIO_SCHEMA":"Track.1"}]}}
  > END
  $ cat > two.script <<'END'
  > insert 0 0 gap 24
  > insert 0 0 gap 12
  > END
  $ interrupted two.script "$OTIO" edit --script - -o long.otio cut.otio
  $ otio stat long.otio
  rate 24.0
  start 0
  length 36
  tracks 1
  stacks 0
  clips 0
  gaps 2
  transitions 0

A log of two rows:

  $ printf 'Heading\nFIELD_DELIM\tTABS\nFPS\t24\n\nColumn\nTape\tStart\tEnd\n\nData\n' > two.ale
  $ printf 'A1\t00:00:00:00\t00:00:10:00\n' >> two.ale
  $ printf 'B1\t00:00:00:00\t00:00:10:00\n' >> two.ale
  $ interrupted two.ale "$OTIO" media -
  A1\t24.0\t0\t240\ttape:A1 (esc)
  B1\t24.0\t0\t240\ttape:B1 (esc)

Interrupted before the first byte of one, and before the end of an empty file:

  $ printf '1' > one.json
  $ interrupted one.json "$OTIO" convert --to json -
  1
  $ interrupted /dev/null "$OTIO" convert --from edl --to edl -
  FCM: NON-DROP FRAME

A text with a fault in its second half, and one that ends too early:

  $ printf '%s' '[true,nul!]' > fault.json
  $ interrupted fault.json "$OTIO" convert --to json -
  otio: -: J1 Syntax at 9
  [1]
  $ printf '%s' '[true,null,' > early.json
  $ interrupted early.json "$OTIO" convert --to json -
  otio: -: J1 Syntax at 11
  [1]
