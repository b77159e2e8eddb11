Notes of clips, written as lists: grades from the metadata, locators from the markers.

`timeline GRADE EFFECTS MARKER..` writes a timeline of one clip, whose metadata have a member GRADE.
`marker NAME FRAME MEMBERS` writes a marker of one frame; `red` is the member of a red one.

  $ . "$TESTDIR/setup.sh"

The timelines below, and that of a clip without notes:

  $ red=',"color":"RED"'
  $ marker() {
  >     cat <<END
  > {"OTIO_SCHEMA":"Marker.2","metadata":{},"name":"$1",
  > "marked_range":{"OTIO_SCHEMA":"TimeRange.1",
  > "duration":{"OTIO_SCHEMA":"RationalTime.1","rate":24.0,"value":1.0},
  > "start_time":{"OTIO_SCHEMA":"RationalTime.1","rate":24.0,"value":$2}}$3}
  > END
  > }
  $ timeline() {
  >     grade=$1 effects=$2
  >     shift 2
  >     markers=$(IFS=,; printf '%s' "$*")
  >     cat <<END
  > {"OTIO_SCHEMA":"Timeline.1","metadata":{},"name":"",
  > "global_start_time":{"OTIO_SCHEMA":"RationalTime.1","rate":24.0,"value":240.0},
  > "tracks":{"OTIO_SCHEMA":"Stack.1","metadata":{},"name":"tracks","source_range":null,
  > "effects":[],"markers":[],"enabled":true,"children":[
  > {"OTIO_SCHEMA":"Track.1","metadata":{},"name":"V","source_range":null,
  > "effects":[],"markers":[],"enabled":true,"children":[
  > {"OTIO_SCHEMA":"Clip.2","metadata":{"cmx_3600":{"reel":"TAPE1"}$grade},"name":"TAPE1",
  > "source_range":{"OTIO_SCHEMA":"TimeRange.1",
  > "duration":{"OTIO_SCHEMA":"RationalTime.1","rate":24.0,"value":48.0},
  > "start_time":{"OTIO_SCHEMA":"RationalTime.1","rate":24.0,"value":86400.0}},
  > "effects":[$effects],"markers":[$markers],"enabled":true,
  > "media_references":{"DEFAULT_MEDIA":{"OTIO_SCHEMA":"MissingReference.1","metadata":{},
  > "name":"","available_range":null}},"active_media_reference_key":"DEFAULT_MEDIA"}],
  > "kind":"Video"}]}}
  > END
  > }
  $ timeline '' '' > x.otio
  $ otio convert --notes --to edl x.otio
  FCM: NON-DROP FRAME
  001  TAPE1    V     C        01:00:00:00 01:00:02:00 00:00:10:00 00:00:12:00
  * FROM CLIP NAME: TAPE1

The members of a grade in another order, among others:

  $ timeline ',"cdl":{"by":"x","asc_sat":1.10,
  > "asc_sop":{"power":[7,8,9],"n":[],"slope":[1,2,3],"offset":[4,-5,6E1]}}' '' > x.otio
  $ otio convert --notes --to edl x.otio
  FCM: NON-DROP FRAME
  001  TAPE1    V     C        01:00:00:00 01:00:02:00 00:00:10:00 00:00:12:00
  * FROM CLIP NAME: TAPE1
  * ASC_SOP: (1 2 3)(4 -5 6E1)(7 8 9)
  * ASC_SAT: 1.10

A slope of two numbers is no note, the saturation is:

  $ timeline ',"cdl":{"asc_sop":{"slope":[1,1],"offset":[0,0,0],
  > "power":[1,1,1]},"asc_sat":1}' '' > x.otio
  $ otio convert --notes --to edl x.otio
  FCM: NON-DROP FRAME
  001  TAPE1    V     C        01:00:00:00 01:00:02:00 00:00:10:00 00:00:12:00
  * FROM CLIP NAME: TAPE1
  * ASC_SAT: 1

A text among the numbers, and one in place of the saturation, are no notes:

  $ timeline ',"cdl":{"asc_sop":{"slope":[1,1,1],"offset":[0,"0",0],"power":[1,1,1]},
  > "asc_sat":"1"}' '' > x.otio
  $ otio convert --notes --to edl x.otio
  FCM: NON-DROP FRAME
  001  TAPE1    V     C        01:00:00:00 01:00:02:00 00:00:10:00 00:00:12:00
  * FROM CLIP NAME: TAPE1

Two lists of numbers, and no saturation:

  $ timeline ',"cdl":{"asc_sop":{"slope":[1,1,1],"offset":[0,0,0]},"asc_sat":null}' '' > x.otio
  $ otio convert --notes --to edl x.otio
  FCM: NON-DROP FRAME
  001  TAPE1    V     C        01:00:00:00 01:00:02:00 00:00:10:00 00:00:12:00
  * FROM CLIP NAME: TAPE1

A power of four numbers, and a saturation outside of the grade:

  $ timeline ',"asc_sat":1,"cdl":{"asc_sop":{
  > "slope":[1,1,1],"offset":[0,0,0],"power":[1,1,1,1]}}' '' > x.otio
  $ otio convert --notes --to edl x.otio
  FCM: NON-DROP FRAME
  001  TAPE1    V     C        01:00:00:00 01:00:02:00 00:00:10:00 00:00:12:00
  * FROM CLIP NAME: TAPE1

A grade that is no object:

  $ timeline ',"cdl":[{"asc_sat":1}]' '' > x.otio
  $ otio convert --notes --to edl x.otio
  FCM: NON-DROP FRAME
  001  TAPE1    V     C        01:00:00:00 01:00:02:00 00:00:10:00 00:00:12:00
  * FROM CLIP NAME: TAPE1

Markers of frames that the event does not show:

  $ timeline '' '' \
  >     "$(marker a 86399 "$red")" \
  >     "$(marker b 86448 "$red")" \
  >     "$(marker c -1 "$red")" > x.otio
  $ otio convert --notes --to edl x.otio
  FCM: NON-DROP FRAME
  001  TAPE1    V     C        01:00:00:00 01:00:02:00 00:00:10:00 00:00:12:00
  * FROM CLIP NAME: TAPE1

A start within a frame is that of the frame:

  $ timeline '' '' \
  >     "$(marker a 86424.9 "$red")" \
  >     "$(marker b 86399.5 "$red")" \
  >     "$(marker c 86447.5 "$red")" > x.otio
  $ otio convert --notes --to edl x.otio
  FCM: NON-DROP FRAME
  001  TAPE1    V     C        01:00:00:00 01:00:02:00 00:00:10:00 00:00:12:00
  * FROM CLIP NAME: TAPE1
  * LOC: 00:00:11:00 RED     a
  * LOC: 00:00:11:23 RED     c

Of a clip at twice its speed, each second frame is shown:

  $ timeline '' '{"OTIO_SCHEMA":"LinearTimeWarp.1","metadata":{},"name":"","effect_name":"",
  > "time_scalar":2.0}' \
  >     "$(marker a 86425 "$red")" \
  >     "$(marker b 86426 "$red")" \
  >     "$(marker c 86494 "$red")" \
  >     "$(marker d 86496 "$red")" > x.otio
  $ otio convert --notes --to edl x.otio
  FCM: NON-DROP FRAME
  001  TAPE1    V     C        01:00:00:00 01:00:04:00 00:00:10:00 00:00:12:00
  M2   TAPE1    048.0                01:00:00:00
  * FROM CLIP NAME: TAPE1
  * LOC: 00:00:10:13 RED     b
  * LOC: 00:00:11:23 RED     c

Of a clip at half its speed, a marker goes to the first of the two frames that show its own:

  $ timeline '' '{"OTIO_SCHEMA":"LinearTimeWarp.1","metadata":{},"name":"","effect_name":"",
  > "time_scalar":0.5}' \
  >     "$(marker a 86401 "$red")" \
  >     "$(marker b 86423 "$red")" \
  >     "$(marker c 86424 "$red")" > x.otio
  $ otio convert --notes --to edl x.otio
  FCM: NON-DROP FRAME
  001  TAPE1    V     C        01:00:00:00 01:00:01:00 00:00:10:00 00:00:12:00
  M2   TAPE1    012.0                01:00:00:00
  * FROM CLIP NAME: TAPE1
  * LOC: 00:00:10:02 RED     a
  * LOC: 00:00:11:22 RED     b

A freeze frame shows one frame:

  $ timeline '' '{"OTIO_SCHEMA":"FreezeFrame.1","metadata":{},"name":"","effect_name":"",
  > "time_scalar":0.0}' \
  >     "$(marker a 86400 "$red")" \
  >     "$(marker b 86401 "$red")" > x.otio
  $ otio convert --notes --to edl x.otio
  FCM: NON-DROP FRAME
  001  TAPE1    V     C        01:00:00:00 01:00:00:00 00:00:10:00 00:00:12:00
  M2   TAPE1    000.0                01:00:00:00
  * FROM CLIP NAME: TAPE1
  * LOC: 00:00:10:00 RED     a

A member that is no color gives red:

  $ timeline '' '' \
  >     "$(marker a 86400 '')" \
  >     "$(marker b 86401 ',"color":"green"')" \
  >     "$(marker c 86402 ',"color":"MAGENTAS"')" \
  >     "$(marker d 86403 ',"color":7')" \
  >     "$(marker e 86404 ',"color":""')" \
  >     "$(marker f 86405 ',"color":"A B"')" > x.otio
  $ otio convert --notes --to edl x.otio
  FCM: NON-DROP FRAME
  001  TAPE1    V     C        01:00:00:00 01:00:02:00 00:00:10:00 00:00:12:00
  * FROM CLIP NAME: TAPE1
  * LOC: 00:00:10:00 RED     a
  * LOC: 00:00:10:01 RED     b
  * LOC: 00:00:10:02 RED     c
  * LOC: 00:00:10:03 RED     d
  * LOC: 00:00:10:04 RED     e
  * LOC: 00:00:10:05 RED     f

Names are written as those of clips are:

  $ timeline '' '' \
  >     "$(marker ' a\n b\t' 86400 ',"color":"MAGENTA"')" \
  >     "$(marker '' 86401 ',"color":"CYAN"')" \
  >     "$(marker '\u0001' 86402 "$red")" \
  >     "$(marker 'é\u00e9' 86403 ',"color":"W"')" > x.otio
  $ otio convert --notes --to edl x.otio
  FCM: NON-DROP FRAME
  001  TAPE1    V     C        01:00:00:00 01:00:02:00 00:00:10:00 00:00:12:00
  * FROM CLIP NAME: TAPE1
  * LOC: 00:00:10:00 MAGENTA a  b
  * LOC: 00:00:10:01 CYAN
  * LOC: 00:00:10:02 RED
  * LOC: 00:00:10:03 W       éé

Markers without a range, and what is none, are no notes. One of the older family is:

  $ timeline '' '' '{"OTIO_SCHEMA":"Marker.2","name":"a"},
  > 7,{"OTIO_SCHEMA":"Foo.1","name":"b"},
  > {"OTIO_SCHEMA":"Marker.1","name":"old","color":"BLUE",
  > "range":{"OTIO_SCHEMA":"TimeRange.1",
  > "start_time":{"OTIO_SCHEMA":"RationalTime.1","rate":48,"value":172803},
  > "duration":{"OTIO_SCHEMA":"RationalTime.1","rate":25,"value":0}}}' \
  >     "$(marker new 86400 "$red")" > x.otio
  $ otio convert --notes --to edl x.otio
  FCM: NON-DROP FRAME
  001  TAPE1    V     C        01:00:00:00 01:00:02:00 00:00:10:00 00:00:12:00
  * FROM CLIP NAME: TAPE1
  * LOC: 00:00:10:01 BLUE    old
  * LOC: 00:00:10:00 RED     new
