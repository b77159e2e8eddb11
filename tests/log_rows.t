Rows of logs (Avid Log Exchange), and logs in the place of media lists.

  $ . "$TESTDIR/setup.sh"

A log of a rate and of columns, with the rows of standard input, which begin at line 6:

  $ log() {
  >     printf "Heading\nFPS\t$1\nColumn\n$2\nData\n" > x.ale
  >     cat >> x.ale
  > }

A tape goes from its least start to its greatest end, in the order of the first rows that count:

  $ printf 'B\t00:00:00:00\t
  > A\t00:00:04:00\t00:00:05:00
  > B\t00:00:02:00\t00:00:03:00
  > A\t00:00:01:00\t00:00:02:00
  > B\t00:00:02:12\t00:00:02:13
  > A\t00:00:03:00\t00:00:09:00
  > A\t00:00:02:00\t00:00:03:00
  > ' | log 24 'Tape\tStart\tEnd'
  $ otio media x.ale
  A\t24.0\t24\t192\ttape:A (esc)
  B\t24.0\t48\t24\ttape:B (esc)

Rows whose end isn't after their start don't count:

  $ printf 'A\t00:00:01:00\t00:00:01:00
  > B\t00:00:02:00\t00:00:01:00
  > ' | log 24 'Tape\tStart\tEnd'
  $ otio media x.ale

Short rows, and rows with an empty field, don't count:

  $ printf 'A
  > B\t00:00:01:00
  > \t00:00:01:00\t00:00:02:00
  > C\t\t00:00:02:00
  > D\tx
  > ' | log 24 'Tape\tStart\tEnd'
  $ otio media x.ale

Rows whose tape can't be a reel don't count, and their labels aren't read:

  $ printf 'BL\tx\ty
  > #A\tx\ty
  > A 1\tx\ty
  > THIRTY-THREE-BYTES-ARE-NO-REEL-01\tx\ty
  > Zürich\tx\ty
  >  \tx\ty
  > ' | log 24 'Tape\tStart\tEnd'
  $ otio media x.ale

Tapes that can be reels:

  $ printf 'THIRTY-TWO-BYTES-ARE-ONE-REEL-01\t00:00:00:00\t00:00:00:01
  > !~#\t00:00:00:00\t00:00:00:01
  > bl\t23:59:59:22\t23:59:59:23
  > ' | log 24 'Tape\tStart\tEnd'
  $ otio media x.ale
  THIRTY-TWO-BYTES-ARE-ONE-REEL-01\t24.0\t0\t1\ttape:THIRTY-TWO-BYTES-ARE-ONE-REEL-01 (esc)
  !~#\t24.0\t0\t1\ttape:!~# (esc)
  bl\t24.0\t2073598\t1\ttape:bl (esc)

Other columns may hold anything:

  $ printf 'é\t00:00:01:00\tA\t00:00:02:00\tmore
  > ' | log 24 'Name\tStart\tTape\tEnd'
  $ otio media x.ale
  A\t24.0\t24\t24\ttape:A (esc)

Drop-frame labels are read where the rate has them:

  $ printf 'A\t00:01:00;02\t00:01:00;03
  > B\t00:01:00:00\t00:01:00:02
  > ' | log 29.97 'Tape\tStart\tEnd'
  $ otio media x.ale
  A\t29.97002997002997\t1800\t1\ttape:A (esc)
  B\t29.97002997002997\t1800\t2\ttape:B (esc)

A label that drop-frame skips is refused, as is a drop-frame label at another rate:

  $ printf 'A\t00:00:59;29\t00:01:00;00
  > ' | log 29.97 'Tape\tStart\tEnd'
  $ otio media x.ale
  otio: x.ale: A3 Label at 6
  [1]
  $ printf 'A\t00:00:01:00\t00:00:02;00
  > ' | log 24 'Tape\tStart\tEnd'
  $ otio media x.ale
  otio: x.ale: A3 Label at 6
  [1]

A faulty start is refused with its line, and a faulty end also after a row that covers it:

  $ printf 'A\t00:00:01:00\t00:00:02:00\n
  > A\t1\t00:00:02:00
  > ' | log 25 'Tape\tStart\tEnd'
  $ otio media x.ale
  otio: x.ale: A3 Label at 8
  [1]
  $ printf 'A\t00:00:01:00\t00:00:02:00
  > A\t00:00:01:00\t24:00:00:00
  > A\tx\ty
  > ' | log 24 'Tape\tStart\tEnd'
  $ otio media x.ale
  otio: x.ale: A3 Label at 7
  [1]

Any command that takes a media list takes a log, by the ending of its name in small or in capital
letters. One in mixed letters is a media list:

  $ printf 'Heading
  > FIELD_DELIM\tTABS
  > FPS\t24\n
  > Column
  > Name\tTape\tStart\tEnd\n
  > Data
  > k1\tA1\t00:00:00:00\t00:00:10:00
  > k2\tB1\t00:00:00:00\t00:00:41:16
  > k3\tA1\t00:00:20:00\t00:00:41:16
  > ' > x.ale
  $ cp x.ale X.ALE
  $ cp x.ale x.Ale
  $ printf 'A1\t24.0\t0\t1000\ttape:A1\nB1\t24.0\t0\t1000\ttape:B1\n' > plain.txt
  $ printf 'Heading\nColumn\n' > bare.ale
  $ cat > fifteen.edl <<'END'
  > TITLE: fifteen
  > FCM: NON-DROP FRAME
  > 001  A1       V     C        00:00:04:04 00:00:05:18 01:00:00:00 01:00:01:14
  > * FROM CLIP NAME: a
  > 002  A1       V     C        00:00:05:18 00:00:05:18 01:00:01:14 01:00:01:14
  > 002  B1       V     D    024 00:00:07:22 00:00:10:08 01:00:01:14 01:00:04:00
  > * FROM CLIP NAME: a
  > * TO CLIP NAME: b
  > END
  $ otio frames --media x.ale --start 86443 --count 1 fifteen.edl
  86443 0 mix(dissolve 5/24 url:"tape:A1"@143 url:"tape:B1"@195)
  $ otio frames --media X.ALE --start 86443 --count 1 fifteen.edl
  86443 0 mix(dissolve 5/24 url:"tape:A1"@143 url:"tape:B1"@195)
  $ otio frames --media plain.txt --start 86443 --count 1 fifteen.edl
  86443 0 mix(dissolve 5/24 url:"tape:A1"@143 url:"tape:B1"@195)
  $ otio frames --media x.Ale fifteen.edl
  otio: x.Ale: M1 Line at 1
  [1]

A faulty or an absent log is named, also where it is the media list:

  $ otio convert --media bare.ale fifteen.edl
  otio: bare.ale: A1 Form at 2
  [1]
  $ otio media plain.txt
  otio: plain.txt: A1 Form at 1
  [1]
  $ otio media gone.ale
  otio: gone.ale: absent
  [3]
  $ otio convert --media gone.ale fifteen.edl
  otio: gone.ale: absent
  [3]
