Texts that end too early, and labels and rates at the ends of what they may be.

  $ . "$TESTDIR/setup.sh"

Each part of an object is refused at its end:

  $ printf '{"OTIO_SCHEMA":"Clip.1","name":"s","media_reference":null}' > whole.otio
  $ wc -c < whole.otio
  58
  $ for size in $(seq 0 57); do
  >     head -c "$size" whole.otio > part.otio
  >     otio convert part.otio
  >     test $? -eq 1 || break
  > done
  otio: part.otio: J1 Syntax at 0
  otio: part.otio: J1 Syntax at 1
  otio: part.otio: J1 Syntax at 2
  otio: part.otio: J1 Syntax at 3
  otio: part.otio: J1 Syntax at 4
  otio: part.otio: J1 Syntax at 5
  otio: part.otio: J1 Syntax at 6
  otio: part.otio: J1 Syntax at 7
  otio: part.otio: J1 Syntax at 8
  otio: part.otio: J1 Syntax at 9
  otio: part.otio: J1 Syntax at 10
  otio: part.otio: J1 Syntax at 11
  otio: part.otio: J1 Syntax at 12
  otio: part.otio: J1 Syntax at 13
  otio: part.otio: J1 Syntax at 14
  otio: part.otio: J1 Syntax at 15
  otio: part.otio: J1 Syntax at 16
  otio: part.otio: J1 Syntax at 17
  otio: part.otio: J1 Syntax at 18
  otio: part.otio: J1 Syntax at 19
  otio: part.otio: J1 Syntax at 20
  otio: part.otio: J1 Syntax at 21
  otio: part.otio: J1 Syntax at 22
  otio: part.otio: J1 Syntax at 23
  otio: part.otio: J1 Syntax at 24
  otio: part.otio: J1 Syntax at 25
  otio: part.otio: J1 Syntax at 26
  otio: part.otio: J1 Syntax at 27
  otio: part.otio: J1 Syntax at 28
  otio: part.otio: J1 Syntax at 29
  otio: part.otio: J1 Syntax at 30
  otio: part.otio: J1 Syntax at 31
  otio: part.otio: J1 Syntax at 32
  otio: part.otio: J1 Syntax at 33
  otio: part.otio: J1 Syntax at 34
  otio: part.otio: J1 Syntax at 35
  otio: part.otio: J1 Syntax at 36
  otio: part.otio: J1 Syntax at 37
  otio: part.otio: J1 Syntax at 38
  otio: part.otio: J1 Syntax at 39
  otio: part.otio: J1 Syntax at 40
  otio: part.otio: J1 Syntax at 41
  otio: part.otio: J1 Syntax at 42
  otio: part.otio: J1 Syntax at 43
  otio: part.otio: J1 Syntax at 44
  otio: part.otio: J1 Syntax at 45
  otio: part.otio: J1 Syntax at 46
  otio: part.otio: J1 Syntax at 47
  otio: part.otio: J1 Syntax at 48
  otio: part.otio: J1 Syntax at 49
  otio: part.otio: J1 Syntax at 50
  otio: part.otio: J1 Syntax at 51
  otio: part.otio: J1 Syntax at 52
  otio: part.otio: J1 Syntax at 53
  otio: part.otio: J1 Syntax at 54
  otio: part.otio: J1 Syntax at 55
  otio: part.otio: J1 Syntax at 56
  otio: part.otio: J1 Syntax at 57

A list may end after its title:

  $ cat > a.edl <<'END'
  > TITLE: ONE
  > FCM: NON-DROP FRAME
  > 
  > END
  $ otio convert --to edl a.edl
  TITLE: ONE
  FCM: NON-DROP FRAME

It ends too early after the third label of an event, and within the fourth:

  $ {
  >     printf 'TITLE: ONE\n'
  >     printf 'FCM: NON-DROP FRAME\n'
  >     printf '\n'
  >     printf '7 TAPE1 V C 01:00:00:00 01:00:02:00 00:00:10:00'
  > } > a.edl
  $ otio convert --to edl a.edl
  otio: a.edl: L1 Form at 4
  [1]
  $ {
  >     printf 'TITLE: ONE\n'
  >     printf 'FCM: NON-DROP FRAME\n'
  >     printf '\n'
  >     printf '7 TAPE1 V C 01:00:00:00 01:00:02:00 00:00:10:00 00:00:12:0'
  > } > a.edl
  $ otio convert --to edl a.edl
  otio: a.edl: L2 Timecode at 4
  [1]

The last frame of the day has a label, the end of the day has none:

  $ {
  >     printf '1 A V C 23:59:59:23 23:59:59:23 00:00:00:00 00:00:00:01\n'
  >     printf 'M2 A 000.0 23:59:59:23'
  > } > a.edl
  $ otio frames a.edl
  0 0 reel:"A"@2073599
  $ printf '1 A V C 00:00:00:00 00:00:00:01 00:00:00:00 24:00:00:00' > a.edl
  $ otio frames a.edl
  otio: a.edl: L2 Timecode at 1
  [1]

In drop-frame the first two labels of a minute are left out, but not those of each tenth minute:

  $ printf 'FCM: DROP FRAME\n1 A V C 00:09:59;29 00:10:00;00 00:00:59;29 00:01:00;02' > a.edl
  $ otio convert --to edl --rate 29.97 a.edl
  FCM: DROP FRAME
  001  A        V     C        00:09:59;29 00:10:00;00 00:00:59;29 00:01:00;02
  $ printf 'FCM: DROP FRAME\n1 A V C 00:00:00;00 00:00:00;01 00:00:59;29 00:01:00;00' > a.edl
  $ otio convert --to edl --rate 29.97 a.edl
  otio: a.edl: L2 Timecode at 2
  [1]

The last label of the day at 60 frames a second, and the highest rate of all:

  $ printf '1 A V C 00:00:00:00 00:00:00:01 23:59:59:58 23:59:59:59' > a.edl
  $ otio convert --to edl --rate 60 a.edl
  FCM: NON-DROP FRAME
  001  A        V     C        00:00:00:00 00:00:00:01 23:59:59:58 23:59:59:59
  $ printf 'TITLE: T' > a.edl
  $ otio stat --rate 705600000000 a.edl
  rate 705600000000.0
  start 0
  length 0
  tracks 0
  stacks 0
  clips 0
  gaps 0
  transitions 0

Rates past the ends of what they may be, and words that are none:

  $ otio stat --rate 705600000001 a.edl 2> usage
  [2]
  $ head -c 28 usage
  otio: usage
    otio convert [ (no-eol)
  $ wc -l < usage
  10
  $ otio stat --rate 0.999999 a.edl 2> message
  [2]
  $ cmp message usage
  $ otio stat --rate 60.5 a.edl 2> message
  [2]
  $ cmp message usage
  $ otio stat --rate 1e1000 a.edl 2> message
  [2]
  $ cmp message usage
  $ otio stat --rate -24 a.edl 2> message
  [2]
  $ cmp message usage
  $ otio stat --rate=-24 a.edl 2> message
  [2]
  $ cmp message usage
