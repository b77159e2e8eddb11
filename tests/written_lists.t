Timelines are written as lists.

  $ . "$TESTDIR/setup.sh"
  $ . "$TESTDIR/timelines.sh"
  $ . "$TESTDIR/list_items.sh"

A media list of two reels:

  $ printf 'A1\t24\t0\t1000\ta.mov\nB1\t24\t0\t1000\tb.mov\n' > m.txt

A timeline without tracks is a list without events:

  $ timeline > t.otio
  $ otio convert --to edl t.otio
  FCM: NON-DROP FRAME

A dissolve between clips of two reels, which the media list names:

  $ one_track ',"name":"fifteen"'"$(start 86400)" \
  >     "$(shot ',"name":"a"'"$(span 100 48)$(media a.mov)")" \
  >     "$(cross ",\"in_offset\":$(frames 10),\"out_offset\":$(frames 14)")" \
  >     "$(shot ',"name":"b"'"$(span 200 48)$(media b.mov)")" > t.otio
  $ otio convert --to edl --media m.txt t.otio
  TITLE: fifteen
  FCM: NON-DROP FRAME
  001  A1       V     C        00:00:04:04 00:00:05:18 01:00:00:00 01:00:01:14
  * FROM CLIP NAME: a
  002  A1       V     C        00:00:05:18 00:00:05:18 01:00:01:14 01:00:01:14
  002  B1       V     D    024 00:00:07:22 00:00:10:08 01:00:01:14 01:00:04:00
  * FROM CLIP NAME: a
  * TO CLIP NAME: b

A dissolve into a clip that is half as fast again:

  $ one_track ',"name":"fifteen"'"$(start 86400)" \
  >     "$(shot ',"name":"a"'"$(span 100 48)$(media a.mov)")" \
  >     "$(cross ",\"in_offset\":$(frames 12)")" \
  >     "$(shot ',"name":"b"'"$(span 200 48)$(media b.mov)$(speeds 1.5)")" > t.otio
  $ otio convert --to edl --media m.txt t.otio
  TITLE: fifteen
  FCM: NON-DROP FRAME
  001  A1       V     C        00:00:04:04 00:00:05:16 01:00:00:00 01:00:01:12
  * FROM CLIP NAME: a
  002  A1       V     C        00:00:05:16 00:00:05:16 01:00:01:12 01:00:01:12
  002  B1       V     D    024 00:00:07:14 00:00:11:08 01:00:01:12 01:00:04:00
  M2   B1       036.0                00:00:07:14
  * FROM CLIP NAME: a
  * TO CLIP NAME: b

A dissolve into a gap:

  $ one_track '' "$(shot ',"name":"a"')" \
  >     "$(cross ",\"in_offset\":$(frames 10),\"out_offset\":$(frames 14)")" \
  >     "$(gap 48)" > t.otio
  $ otio convert --to edl t.otio
  FCM: NON-DROP FRAME
  001  A1       V     C        00:00:00:00 00:00:00:14 00:00:00:00 00:00:00:14
  * FROM CLIP NAME: a
  002  A1       V     C        00:00:00:14 00:00:00:14 00:00:00:14 00:00:00:14
  002  BL       V     D    024 00:00:00:00 00:00:01:00 00:00:00:14 00:00:01:14
  * FROM CLIP NAME: a

A reel of 15 bytes in the wide layout, whose long line is shown in two parts:

  $ one_track '' "$(shot "$(reel A001C003_240101)")" > t.otio
  $ otio convert --to edl --wide t.otio > out
  $ cut -c 1-48 out
  FCM: NON-DROP FRAME
  000001  A001C003_240101                  V     C
  $ tail -n 1 out | cut -c 49-
          00:00:00:00 00:00:01:00 00:00:00:00 00:00:01:00

A disabled track is left out:

  $ timeline "$(composition Track.1 ',"enabled":false' "$(shot)")" \
  >     "$(composition Track.1 ',"kind":"Audio"' "$(shot)")" > t.otio
  $ otio convert --to edl t.otio
  FCM: NON-DROP FRAME
  001  A1       A     C        00:00:00:00 00:00:01:00 00:00:00:00 00:00:01:00

A disabled clip is a gap, and needs no reel:

  $ one_track '' "$(shot ',"enabled":false,"metadata":{}')" "$(shot)" > t.otio
  $ otio convert --to edl t.otio
  FCM: NON-DROP FRAME
  001  A1       V     C        00:00:00:00 00:00:01:00 00:00:01:00 00:00:02:00
