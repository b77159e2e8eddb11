What a list can't carry is refused, with its place.

  $ . "$TESTDIR/setup.sh"
  $ . "$TESTDIR/timelines.sh"
  $ . "$TESTDIR/list_items.sh"

A clip without a length, with the message on the stream of messages alone:

  $ one_track '' '{"OTIO_SCHEMA":"Clip.2"}' > t.otio
  $ otio convert --to edl t.otio 2> told
  [1]
  $ cat told
  otio: t.otio: K1 NoLength at 0

A gap in the place of a track, and a second track:

  $ timeline '{"OTIO_SCHEMA":"Gap.1"}' > t.otio
  $ otio convert --to edl t.otio
  otio: t.otio: N1 Tracks at 0
  [1]
  $ timeline "$(track)" "$(track)" > t.otio
  $ otio convert --to edl t.otio
  otio: t.otio: N1 Tracks at 1
  [1]

A stack in a track, and a track with a range:

  $ one_track '' '{"OTIO_SCHEMA":"Stack.1"}' > t.otio
  $ otio convert --to edl t.otio
  otio: t.otio: N2 Nested at 0/0
  [1]
  $ timeline "$(composition Track.1 "$(span 0 24)")" > t.otio
  $ otio convert --to edl t.otio
  otio: t.otio: N2 Nested at 0
  [1]

A clip of twelve frames and a half:

  $ one_track '' "$(shot "$(span 0 12.5)")" > t.otio
  $ otio convert --to edl t.otio
  otio: t.otio: N3 OffFrame at 0/0
  [1]

A clip without a reel, and one whose reel is too long for the narrow layout:

  $ one_track '' "$(shot)" "$(shot ',"metadata":{}')" > t.otio
  $ otio convert --to edl t.otio
  otio: t.otio: N4 NoReel at 0/1
  [1]
  $ one_track '' "$(shot "$(reel A001C003_240101)")" > t.otio
  $ otio convert --to edl t.otio
  otio: t.otio: N4 NoReel at 0/0
  [1]

A timeline that starts at another rate than its clip's:

  $ at_25='{"OTIO_SCHEMA":"RationalTime.1","rate":25,"value":0}'
  $ one_track ",\"global_start_time\":$at_25" "$(shot)" > t.otio
  $ otio convert --to edl t.otio
  otio: t.otio: N5 RateDiffers at 0/0
  [1]

A clip that begins in the last frame of the day and ends in the next day:

  $ one_track '' "$(shot "$(span 2073599 2)")" > t.otio
  $ otio convert --to edl t.otio
  otio: t.otio: N6 SourceDay at 0/0
  [1]

An effect that isn't a speed, and a clip that plays backward:

  $ one_track '' "$(shot ',"effects":[{"OTIO_SCHEMA":"Effect.1"}]')" > t.otio
  $ otio convert --to edl t.otio
  otio: t.otio: N7 Effect at 0/0
  [1]
  $ one_track '' "$(shot "$(speeds -1)")" > t.otio
  $ otio convert --to edl t.otio
  otio: t.otio: N8 Speed at 0/0
  [1]

A clip at twice its speed that begins at half a frame:

  $ one_track '' "$(shot "$(span 0.5 24)$(speeds 2)")" > t.otio
  $ otio convert --to edl t.otio
  otio: t.otio: N9 Phase at 0/0
  [1]

A dissolve that is longer than the clip after it, and one of another kind:

  $ one_track '' "$(shot)" "$(cross)" "$(shot "$(span 0 6)")" > t.otio
  $ otio convert --to edl t.otio
  otio: t.otio: N10 Overlap at 0/1
  [1]
  $ fade=',"transition_type":"Custom_Fade"'
  $ one_track '' "$(shot)" "$(cross "$fade")" "$(shot)" > t.otio
  $ otio convert --to edl t.otio
  otio: t.otio: N11 Kind at 0/1
  [1]

A timeline that starts in the last frame of the day:

  $ one_track "$(start 2073599)" "$(shot)" > t.otio
  $ otio convert --to edl t.otio
  otio: t.otio: N14 RecordDay at 0/0
  [1]

With a media list, a clip without media has no reel:

  $ printf 'A1\t24\t0\t1000\ta.mov\nB1\t24\t0\t1000\tb.mov\n' > m.txt
  $ one_track '' "$(shot)" > t.otio
  $ otio convert --to edl --media m.txt t.otio
  otio: t.otio: N4 NoReel at 0/0
  [1]

A dissolve into a clip that is a tenth faster:

  $ one_track ',"name":"fifteen"'"$(start 86400)" \
  >     "$(shot ',"name":"a"'"$(span 100 48)$(media a.mov)")" \
  >     "$(cross ",\"in_offset\":$(frames 12)")" \
  >     "$(shot ',"name":"b"'"$(span 200 48)$(media b.mov)$(speeds 1.1)")" > t.otio
  $ otio convert --to edl --media m.txt t.otio
  otio: t.otio: N9 Phase at 0/2
  [1]

A clip that goes beyond its medium:

  $ printf 'A1\t24\t0\t23\ta.mov\n' > short.txt
  $ one_track '' "$(shot "$(media a.mov)")" > t.otio
  $ otio convert --to edl --media short.txt t.otio
  otio: t.otio: N12 Outside at 0/0
  [1]

Drop-frame at a rate that has none, and media lists that are faulty or absent, are refused before a
gap in the place of a track is:

  $ timeline '{"OTIO_SCHEMA":"Gap.1"}' > t.otio
  $ otio convert --to edl --drop t.otio
  otio: t.otio: N15 NoTimecode at .
  [1]
  $ printf 'A1\t24\t0\t9\ta.mov\nA1\t24\t0\t9\tb.mov\n' > twice.txt
  $ otio convert --to edl --media twice.txt t.otio
  otio: twice.txt: M2 ReelTwice at 2
  [1]
  $ otio convert --to edl --media gone.txt t.otio
  otio: gone.txt: absent
  [3]
