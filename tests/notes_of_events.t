Notes go with the events of lists, whatever else the events have and wherever they stand.

Each list is written as a list, read into a timeline, and this timeline is written as a list.

  $ . "$TESTDIR/setup.sh"

Notes of black are left out, and those of the cut of no frames before a dissolve:

  $ cat > a.edl <<'END'
  > 1 A V C 01:00:00:00 01:00:02:00 00:00:10:00 00:00:12:00
  > 2 BL V C 00:00:00:00 00:00:01:00 00:00:12:00 00:00:13:00
  > * ASC_SAT: 1
  > * LOC: 00:00:12:01 RED x
  > 3 BL V C 00:00:00:00 00:00:00:00 00:00:13:00 00:00:13:00
  > * ASC_SAT: 2
  > 3 A V D 012 01:00:03:00 01:00:04:00 00:00:13:00 00:00:14:00
  > * ASC_SAT: 3
  > * LOC: 00:00:13:01 RED y
  > 4 A V C 01:00:04:00 01:00:05:00 00:00:14:00 00:00:15:00
  > * ASC_SAT: 4
  > 4 B V D 012 01:00:03:00 01:00:04:00 00:00:15:00 00:00:16:00
  > * ASC_SAT: 5
  > 5 B V C 01:00:04:00 01:00:04:00 00:00:16:00 00:00:16:00
  > * ASC_SAT: 6
  > 5 BL V D 012 00:00:00:00 00:00:01:00 00:00:16:00 00:00:17:00
  > * ASC_SAT: 7
  > END
  $ otio convert --notes --to edl a.edl
  FCM: NON-DROP FRAME
  001  A        V     C        01:00:00:00 01:00:02:00 00:00:10:00 00:00:12:00
  002  BL       V     C        00:00:00:00 00:00:01:00 00:00:12:00 00:00:13:00
  003  BL       V     C        00:00:00:00 00:00:00:00 00:00:13:00 00:00:13:00
  003  A        V     D    012 01:00:03:00 01:00:04:00 00:00:13:00 00:00:14:00
  * ASC_SAT: 3
  * LOC: 00:00:13:01 RED     y
  004  A        V     C        01:00:04:00 01:00:05:00 00:00:14:00 00:00:15:00
  * ASC_SAT: 4
  005  A        V     C        01:00:05:00 01:00:05:00 00:00:15:00 00:00:15:00
  005  B        V     D    012 01:00:03:00 01:00:04:00 00:00:15:00 00:00:16:00
  * ASC_SAT: 5
  006  B        V     C        01:00:04:00 01:00:04:00 00:00:16:00 00:00:16:00
  006  BL       V     D    012 00:00:00:00 00:00:01:00 00:00:16:00 00:00:17:00
  $ otio convert --notes a.edl > x.otio
  $ otio convert --notes --to edl x.otio
  FCM: NON-DROP FRAME
  001  A        V     C        01:00:00:00 01:00:02:00 00:00:10:00 00:00:12:00
  * FROM CLIP NAME: A
  002  BL       V     C        00:00:00:00 00:00:00:00 00:00:13:00 00:00:13:00
  002  A        V     D    012 01:00:03:00 01:00:04:00 00:00:13:00 00:00:14:00
  * TO CLIP NAME: A
  * ASC_SAT: 3
  * LOC: 00:00:13:01 RED     y
  003  A        V     C        01:00:04:00 01:00:05:00 00:00:14:00 00:00:15:00
  * FROM CLIP NAME: A
  * ASC_SAT: 4
  004  A        V     C        01:00:05:00 01:00:05:00 00:00:15:00 00:00:15:00
  004  B        V     D    012 01:00:03:00 01:00:04:00 00:00:15:00 00:00:16:00
  * FROM CLIP NAME: A
  * TO CLIP NAME: B
  * ASC_SAT: 5
  005  B        V     C        01:00:04:00 01:00:04:00 00:00:16:00 00:00:16:00
  005  BL       V     D    012 00:00:00:00 00:00:00:12 00:00:16:00 00:00:16:12
  * FROM CLIP NAME: B

Notes before all events are left out. Events out of order keep theirs:

  $ cat > a.edl <<'END'
  > * ASC_SAT: 9
  > * LOC: 00:00:11:00 RED x
  > 1 A V C 01:00:00:00 01:00:01:00 00:00:11:00 00:00:12:00
  > * a comment
  > 
  > * ASC_SAT: 1
  > * LOC: 00:00:10:00 RED x
  > 2 B V C 01:00:00:00 01:00:01:00 00:00:10:00 00:00:11:00
  > M2 B 012.0 01:00:00:00
  > * ASC_SAT: 2
  > * LOC: 00:00:11:00 RED x
  > * LOC: 00:00:10:23 RED y
  > END
  $ otio convert --notes --to edl a.edl
  FCM: NON-DROP FRAME
  001  B        V     C        01:00:00:00 01:00:01:00 00:00:10:00 00:00:11:00
  M2   B        012.0                01:00:00:00
  * ASC_SAT: 2
  * LOC: 00:00:10:23 RED     y
  002  A        V     C        01:00:00:00 01:00:01:00 00:00:11:00 00:00:12:00
  * ASC_SAT: 1
  $ otio convert --notes a.edl > x.otio
  $ otio convert --notes --to edl x.otio
  FCM: NON-DROP FRAME
  001  B        V     C        01:00:00:00 01:00:00:12 00:00:10:00 00:00:11:00
  M2   B        012.0                01:00:00:00
  * FROM CLIP NAME: B
  * ASC_SAT: 2
  * LOC: 00:00:10:22 RED     y
  002  A        V     C        01:00:00:00 01:00:01:00 00:00:11:00 00:00:12:00
  * FROM CLIP NAME: A
  * ASC_SAT: 1

The speed and the names of a dissolve are written before its notes:

  $ cat > a.edl <<'END'
  > 1 A V C 01:00:00:00 01:00:00:00 00:00:10:00 00:00:10:00
  > 1 B V D 012 01:00:03:00 01:00:04:00 00:00:10:00 00:00:11:00
  > * ASC_SAT: 1
  > M2 B 048.0 01:00:03:00
  > * LOC: 00:00:10:00 RED x
  > * FROM CLIP NAME: a
  > * TO CLIP NAME: b
  > END
  $ otio convert --notes --to edl a.edl
  FCM: NON-DROP FRAME
  001  A        V     C        01:00:00:00 01:00:00:00 00:00:10:00 00:00:10:00
  001  B        V     D    012 01:00:03:00 01:00:04:00 00:00:10:00 00:00:11:00
  M2   B        048.0                01:00:03:00
  * FROM CLIP NAME: a
  * TO CLIP NAME: b
  * ASC_SAT: 1
  * LOC: 00:00:10:00 RED     x
  $ otio convert --notes a.edl > x.otio
  $ otio convert --notes --to edl x.otio
  FCM: NON-DROP FRAME
  001  A        V     C        01:00:00:00 01:00:00:00 00:00:10:00 00:00:10:00
  001  B        V     D    012 01:00:03:00 01:00:05:00 00:00:10:00 00:00:11:00
  M2   B        048.0                01:00:03:00
  * FROM CLIP NAME: a
  * TO CLIP NAME: b
  * ASC_SAT: 1
  * LOC: 00:00:10:00 RED     x

Labels in drop-frame, which lacks some labels. A colon has the mode of the last FCM line:

  $ cat > a.edl <<'END'
  > FCM: DROP FRAME
  > 1 A V C 01:00:00;00 01:00:02;00 00:01:00;02 00:01:02;02
  > * LOC: 00:01:00:02 RED x
  > * LOC: 00:01:00:00 RED y
  > FCM: NON-DROP FRAME
  > * LOC: 00:01:00:00 RED z
  > * LOC: 00:01:00;03 RED u
  > * LOC: 00:01:00:02 RED v
  > END
  $ otio convert --notes --to edl --rate 29.97 a.edl
  FCM: DROP FRAME
  001  A        V     C        01:00:00;00 01:00:02;00 00:01:00;02 00:01:02;02
  * LOC: 00:01:00;02 RED     x
  * LOC: 00:01:00;02 RED     z
  * LOC: 00:01:00;03 RED     u
  * LOC: 00:01:00;04 RED     v
  $ otio convert --notes --rate 29.97 a.edl > x.otio
  $ otio convert --notes --to edl x.otio
  FCM: NON-DROP FRAME
  001  A        V     C        00:59:56:12 00:59:58:12 00:01:00:00 00:01:02:00
  * FROM CLIP NAME: A
  * LOC: 00:01:00:00 RED     x
  * LOC: 00:01:00:00 RED     z
  * LOC: 00:01:00:01 RED     u
  * LOC: 00:01:00:02 RED     v

Labels that are written in drop-frame:

  $ cat > a.edl <<'END'
  > 1 A V C 01:00:00:00 01:00:02:00 00:00:59:00 00:01:01:00
  > * LOC: 00:01:00:00 RED x
  > END
  $ otio convert --notes --to edl --rate 29.97 --drop a.edl
  FCM: DROP FRAME
  001  A        V     C        01:00:03;18 01:00:05;18 00:00:59;00 00:01:01;02
  * LOC: 00:01:00;02 RED     x
  $ otio convert --notes --rate 29.97 a.edl > x.otio
  $ otio convert --notes --to edl --drop x.otio
  FCM: DROP FRAME
  001  A        V     C        01:00:03;18 01:00:05;18 00:00:59;00 00:01:01;02
  * FROM CLIP NAME: A
  * LOC: 00:01:00;02 RED     x
