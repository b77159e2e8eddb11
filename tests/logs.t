Logs (Avid Log Exchange) are read, and sent as media lists by `media`.

  $ . "$TESTDIR/setup.sh"

A log gives one medium for each tape, from its least start to its greatest end:

  $ printf 'Heading
  > FIELD_DELIM\tTABS
  > FPS\t24\n
  > Column
  > Name\tTape\tStart\tEnd\n
  > Data
  > k1\tA1\t00:00:00:00\t00:00:10:00
  > k2\tB1\t00:00:00:00\t00:00:41:16
  > k3\tA1\t00:00:20:00\t00:00:41:16
  > ' > x.ale
  $ otio media x.ale
  A1\t24.0\t0\t1000\ttape:A1 (esc)
  B1\t24.0\t0\t1000\ttape:B1 (esc)

A label of a 25th frame is refused at 24 frames a second, on the stream of messages alone:

  $ printf 'Heading
  > FIELD_DELIM\tTABS
  > FPS\t24\n
  > Column
  > Name\tTape\tStart\tEnd\n
  > Data
  > k1\tA1\t00:00:00:24\t00:00:10:00
  > k2\tB1\t00:00:00:00\t00:00:41:16
  > k3\tA1\t00:00:20:00\t00:00:41:16
  > ' > x.ale
  $ otio media x.ale 2> told
  [1]
  $ cat told
  otio: x.ale: A3 Label at 9

Lines may end with CR LF:

  $ printf 'Heading\r
  > FIELD_DELIM\tTABS\r
  > FPS\t24\r
  > \r
  > Column\r
  > Name\tTape\tStart\tEnd\r
  > \r
  > Data\r
  > k1\tA1\t00:00:00:00\t00:00:10:00\r
  > k2\tB1\t00:00:00:00\t00:00:41:16\r
  > k3\tA1\t00:00:20:00\t00:00:41:16\r
  > ' > x.ale
  $ otio media x.ale
  A1\t24.0\t0\t1000\ttape:A1 (esc)
  B1\t24.0\t0\t1000\ttape:B1 (esc)

The last line needs no end:

  $ printf 'Heading
  > FIELD_DELIM\tTABS
  > FPS\t24\n
  > Column
  > Name\tTape\tStart\tEnd\n
  > Data
  > k1\tA1\t00:00:00:00\t00:00:10:00
  > k2\tB1\t00:00:00:00\t00:00:41:16
  > k3\tA1\t00:00:20:00\t00:00:41:16' > x.ale
  $ otio media x.ale
  A1\t24.0\t0\t1000\ttape:A1 (esc)
  B1\t24.0\t0\t1000\ttape:B1 (esc)

Blanks and tabs at the ends of lines and of fields are ignored, and so are blank lines:

  $ printf '\n \t
  > \t Heading \t
  >  \t
  > FPS\t 24\040
  > \t\t
  >  Column\t
  > \t\040
  >  Name \t Tape\t Start \t End\040\n
  > \tData\040
  > \t\t
  >  x \t A1 \t 00:00:01:00 \t 00:00:02:00\040
  > \040\040
  > ' > x.ale
  $ otio media x.ale
  A1\t24.0\t24\t24\ttape:A1 (esc)

A log without rows gives nothing:

  $ printf 'Heading
  > FPS\t24
  > Column
  > Tape\tStart\tEnd
  > Data
  > ' > x.ale
  $ otio media x.ale

So does one that ends with `Data`, without the end of its line:

  $ printf 'Heading
  > FPS\t24
  > Column
  > Tape\tStart\tEnd
  > Data' > x.ale
  $ otio media x.ale

Of two rates the first counts:

  $ printf 'Heading
  > FPS\t25
  > FPS\tx
  > Column
  > Tape\tStart\tEnd
  > Data
  > A\t00:00:01:00\t00:00:02:00
  > ' > x.ale
  $ otio media x.ale
  A\t25.0\t25\t25\ttape:A (esc)

Other lines of the heading are ignored:

  $ printf 'Heading
  > \tx
  > fps\t1
  > VIDEO_FORMAT\t1080
  > FPS\t24
  > FIELD_DELIM\t TABS\040
  > Column
  > Tape\tStart\tEnd
  > Data
  > A\t00:00:01:00\t00:00:02:00
  > ' > x.ale
  $ otio media x.ale
  A\t24.0\t24\t24\ttape:A (esc)

Of two columns of one name the first counts:

  $ printf 'Heading
  > FPS\t24
  > Column
  > Tape\tEnd\tStart\tTape\tEnd
  > Data
  > A\t00:00:02:00\t00:00:01:00\tB\t00:00:09:00
  > ' > x.ale
  $ otio media x.ale
  A\t24.0\t24\t24\ttape:A (esc)

An empty file is refused:

  $ : > x.ale
  $ otio media x.ale
  otio: x.ale: A1 Form at 1
  [1]

A log that ends after `Heading`, after its rate, after `Column` or after its columns:

  $ printf 'Heading\n' > x.ale
  $ otio media x.ale
  otio: x.ale: A1 Form at 2
  [1]
  $ printf 'Heading\nFPS\t24' > x.ale
  $ otio media x.ale
  otio: x.ale: A1 Form at 3
  [1]
  $ printf 'Heading
  > FPS\t24
  > Column\n
  > ' > x.ale
  $ otio media x.ale
  otio: x.ale: A1 Form at 5
  [1]
  $ printf 'Heading
  > FPS\t24
  > Column
  > Tape\tStart\tEnd
  > ' > x.ale
  $ otio media x.ale
  otio: x.ale: A1 Form at 5
  [1]

No heading, one in small letters, and one with another word:

  $ printf '\nFPS\t24\n' > x.ale
  $ otio media x.ale
  otio: x.ale: A1 Form at 2
  [1]
  $ printf 'heading\n' > x.ale
  $ otio media x.ale
  otio: x.ale: A1 Form at 1
  [1]
  $ printf 'Heading x\n' > x.ale
  $ otio media x.ale
  otio: x.ale: A1 Form at 1
  [1]

A line of the heading without a tab:

  $ printf 'Heading
  > FPS\t24
  > VIDEO_FORMAT 1080
  > Column
  > ' > x.ale
  $ otio media x.ale
  otio: x.ale: A1 Form at 3
  [1]

Another delimiter than tabs, in the first and in the second such line:

  $ printf 'Heading\nFIELD_DELIM\tCOMMAS\nFPS\t24\n' > x.ale
  $ otio media x.ale
  otio: x.ale: A1 Form at 2
  [1]
  $ printf 'Heading
  > FIELD_DELIM\tTABS
  > FPS\t24
  > FIELD_DELIM\t
  > Column
  > ' > x.ale
  $ otio media x.ale
  otio: x.ale: A1 Form at 4
  [1]

No rate:

  $ printf 'Heading
  > FIELD_DELIM\tTABS
  >  FPS\t24
  > Column
  > Tape\tStart\tEnd
  > Data
  > ' > x.ale
  $ otio media x.ale
  otio: x.ale: A1 Form at 4
  [1]

No column `Start`, and columns with commas between them:

  $ printf 'Heading
  > FPS\t24
  > Column
  > Tape\tstart\tEnd
  > Data
  > ' > x.ale
  $ otio media x.ale
  otio: x.ale: A1 Form at 4
  [1]
  $ printf 'Heading
  > FPS\t24
  > Column
  > Tape,Start,End
  > Data
  > ' > x.ale
  $ otio media x.ale
  otio: x.ale: A1 Form at 4
  [1]

No line `Data`:

  $ printf 'Heading
  > FPS\t24
  > Column
  > Tape\tStart\tEnd
  > A\t00:00:01:00\t00:00:02:00
  > ' > x.ale
  $ otio media x.ale
  otio: x.ale: A1 Form at 5
  [1]

A rate that isn't a numeral, and one with a tab after it:

  $ printf 'Heading\nFPS\t24fps\nColumn\n' > x.ale
  $ otio media x.ale
  otio: x.ale: A2 Rate at 2
  [1]
  $ printf 'Heading\nFPS\t24\t\nColumn\n' > x.ale
  $ otio media x.ale
  otio: x.ale: A2 Rate at 2
  [1]

A rate of 0, and one that no timecode has:

  $ printf 'Heading\nFPS\t0\nColumn\n' > x.ale
  $ otio media x.ale
  otio: x.ale: A2 Rate at 2
  [1]
  $ printf 'Heading\nFPS\t12.5\nColumn\n' > x.ale
  $ otio media x.ale
  otio: x.ale: A2 Rate at 2
  [1]

A CR alone doesn't end a line:

  $ printf 'Heading\nFPS\t24\r\rColumn\n' > x.ale
  $ otio media x.ale
  otio: x.ale: A2 Rate at 2
  [1]
