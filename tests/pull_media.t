Lists of source frames, by the speeds, rates, media and spans of clips.

  $ . "$TESTDIR/setup.sh"
  $ . "$TESTDIR/timelines.sh"

`at RATE START LENGTH` writes a range, `shot MEDIA SOURCE AVAILABLE MEMBERS` a clip of media.

  $ at() {
  >     printf '{"OTIO_SCHEMA":"TimeRange.1",'
  >     printf '"start_time":{"OTIO_SCHEMA":"RationalTime.1","rate":%s,"value":%s},' "$1" "$2"
  >     printf '"duration":{"OTIO_SCHEMA":"RationalTime.1","rate":%s,"value":%s}}' "$1" "$3"
  > }
  $ shot() {
  >     printf '{"OTIO_SCHEMA":"Clip.2","source_range":%s,' "$2"
  >     printf '"media_references":{"DEFAULT_MEDIA":{"OTIO_SCHEMA":"%s",' "$1"
  >     printf '"available_range":%s}}%s}' "$3" "${4:-}"
  > }
  $ a='ExternalReference.1","target_url":"a.mov'
  $ b='ExternalReference.1","target_url":"b.mov'
  $ all=$(at 24 0 100)
  $ disabled=',"enabled":false'
  $ freeze=',"effects":[{"OTIO_SCHEMA":"FreezeFrame.1"}]'
  $ reel=',"metadata":{"cmx_3600":{"reel":"a.mov"}}'

A freeze frame uses one frame, and has handles on both sides:

  $ timeline "$(track "$(shot "$a" "$(at 24 10 24)" "$all" "$freeze")")" > freeze.otio
  $ otio pull freeze.otio
  pull url:"a.mov" 24.0 10 1
  $ otio pull --handles 2 freeze.otio
  pull url:"a.mov" 24.0 8 5

A clip that is played in reverse shows frames before its start. Handles end where media do:

  $ timeline "$(track \
  >     "$(shot "$a" "$(at 24 10 5)" "$(at 24 8 12)" "$(speeds -1.0)")")" > reverse.otio
  $ otio pull reverse.otio
  pull url:"a.mov" 24.0 6 5
  $ otio pull --handles 2 reverse.otio
  pull url:"a.mov" 24.0 6 7

At half the speed half as many frames are used:

  $ timeline "$(track "$(shot "$a" "$(at 24 0 24)" "$all" "$(speeds 0.5)")")" > half.otio
  $ otio pull half.otio
  pull url:"a.mov" 24.0 0 12

Frames before the media are listed, and have no handles there:

  $ timeline "$(track "$(shot "$a" "$(at 24 -5 10)" "$all")")" > before.otio
  $ otio pull --handles 3 before.otio
  pull url:"a.mov" 24.0 -5 13

Frames of a file at two rates are listed for each rate:

  $ timeline "$(track \
  >     "$(shot "$a" "$(at 24 0 10)" "$all")" \
  >     "$(shot "$a" "$(at 25 0 10)" "$(at 25 0 100)")")" > rates.otio
  $ otio pull --handles 1 rates.otio
  pull url:"a.mov" 24.0 0 11
  pull url:"a.mov" 25.0 0 11

A disabled clip uses no frame, but its media may have more frames for handles:

  $ timeline "$(track \
  >     "$(shot "$a" "$(at 24 10 5)" "$(at 24 10 5)")" \
  >     "$(shot "$a" "$(at 24 0 5)" "$all" "$disabled")")" > owner.otio
  $ otio pull --handles 3 owner.otio
  pull url:"a.mov" 24.0 7 11

Media are listed in the order of their first clips, disabled ones too:

  $ timeline "$(track \
  >     "$(shot "$b" "$(at 24 0 5)" "$all" "$disabled")" \
  >     "$(shot "$a" "$(at 24 0 5)" "$all")" \
  >     "$(shot "$b" "$(at 24 0 5)" "$all")")" > order.otio
  $ otio pull order.otio
  pull url:"b.mov" 24.0 0 5
  pull url:"a.mov" 24.0 0 5

Media of five kinds are listed for each, although their names are equal:

  $ timeline "$(track \
  >     "$(shot "$a" "$(at 24 0 1)" "$all")" \
  >     "$(shot 'ImageSequenceReference.1","target_url_base":"a.mov' "$(at 24 1 1)" "$all")" \
  >     "$(shot 'GeneratorReference.1","generator_kind":"a.mov' "$(at 24 2 1)" "$all")" \
  >     "$(shot 'MissingReference.1' "$(at 24 3 1)" "$all" "$reel")" \
  >     "$(shot 'MissingReference.1' "$(at 24 4 1)" "$all" ',"name":"a.mov"')")" > kinds.otio
  $ otio pull kinds.otio
  pull url:"a.mov" 24.0 0 1
  pull seq:"a.mov#" 24.0 1 1
  pull gen:"a.mov" 24.0 2 1
  pull reel:"a.mov" 24.0 3 1
  pull name:"a.mov" 24.0 4 1

Handles end at the media of each clip:

  $ timeline "$(track \
  >     "$(shot "$a" "$(at 24 0 5)" "$(at 24 0 7)")" \
  >     "$(shot "$a" "$(at 24 9 5)" "$(at 24 8 7)")")" > apart.otio
  $ otio pull --handles 10000 apart.otio
  pull url:"a.mov" 24.0 0 7
  pull url:"a.mov" 24.0 8 7

Spans that touch are listed as one:

  $ timeline "$(track \
  >     "$(shot "$a" "$(at 24 5 5)" "$all")" \
  >     "$(shot "$a" "$(at 24 0 5)" "$all")")" > touching.otio
  $ otio pull touching.otio
  pull url:"a.mov" 24.0 0 10

A list, and its media:

  $ cat > a.edl <<'END'
  > 1 T1 V C 00:00:01:00 00:00:02:00 01:00:00:00 01:00:01:00
  > END
  $ otio pull a.edl
  pull reel:"T1" 24.0 24 24
  $ otio pull --handles 5 a.edl
  pull reel:"T1" 24.0 19 34
  $ printf 'T1\t24\t0\t50\tt1.mov\n' > m.txt
  $ otio pull --media m.txt --handles 5 a.edl
  pull url:"t1.mov" 24.0 19 31
