The first fault of an object is named, with its place.

  $ . "$TESTDIR/setup.sh"

A schema without a version is refused, on the stream of messages alone:

  $ cat > a.otio <<'END'
  > {"OTIO_SCHEMA": "Clip"}
  > END
  $ otio convert a.otio 2> told
  [1]
  $ cat told
  otio: a.otio: S1 NotObject at .

Of two children of an unknown schema the first is named:

  $ cat > a.otio <<'END'
  > {
  >   "OTIO_SCHEMA": "Timeline.1",
  >   "tracks": {
  >     "OTIO_SCHEMA": "Stack.1",
  >     "children": [
  >       {
  >         "OTIO_SCHEMA": "Track.1",
  >         "children": [{"OTIO_SCHEMA": "Gap.1"}, {"OTIO_SCHEMA": "Foo.7"}]
  >       },
  >       {"OTIO_SCHEMA": "Foo.8"}
  >     ]
  >   }
  > }
  > END
  $ otio convert a.otio
  otio: a.otio: S2 UnknownChild at 0/1
  [1]

A version that is newer than the known one is refused:

  $ cat > a.otio <<'END'
  > {"OTIO_SCHEMA": "Clip.3"}
  > END
  $ otio convert a.otio
  otio: a.otio: S3 Newer at .
  [1]

A member of another kind than the schema says is named:

  $ cat > a.otio <<'END'
  > {
  >   "OTIO_SCHEMA": "Stack.1",
  >   "children": [{"OTIO_SCHEMA": "Gap.1"}, {"OTIO_SCHEMA": "Gap.1", "enabled": 1}]
  > }
  > END
  $ otio convert a.otio
  otio: a.otio: S4 Field at 1 enabled
  [1]

A rate outside the profile of rates is refused:

  $ cat > a.otio <<'END'
  > {
  >   "OTIO_SCHEMA": "Timeline.1",
  >   "global_start_time": {"OTIO_SCHEMA": "RationalTime.1", "rate": 29.5, "value": 0}
  > }
  > END
  $ otio convert a.otio
  otio: a.otio: S5 Rate at .
  [1]

A time out of range is refused:

  $ cat > a.otio <<'END'
  > {
  >   "OTIO_SCHEMA": "Timeline.1",
  >   "global_start_time": {"OTIO_SCHEMA": "RationalTime.1", "rate": 24, "value": 1e99}
  > }
  > END
  $ otio convert a.otio
  otio: a.otio: S6 Range at .
  [1]

A transition in a stack is refused:

  $ cat > a.otio <<'END'
  > {"OTIO_SCHEMA": "Stack.1", "children": [{"OTIO_SCHEMA": "Transition.1"}]}
  > END
  $ otio convert a.otio
  otio: a.otio: S7 Transitions at .
  [1]

Two transitions next to each other are refused:

  $ cat > a.otio <<'END'
  > {
  >   "OTIO_SCHEMA": "SerializableCollection.1",
  >   "children": [
  >     {
  >       "OTIO_SCHEMA": "Track.1",
  >       "children": [{"OTIO_SCHEMA": "Transition.1"}, {"OTIO_SCHEMA": "Transition.1"}]
  >     }
  >   ]
  > }
  > END
  $ otio convert a.otio
  otio: a.otio: S7 Transitions at 0
  [1]

A file of an effect alone is refused:

  $ cat > a.otio <<'END'
  > {"OTIO_SCHEMA": "Effect.1"}
  > END
  $ otio convert a.otio
  otio: a.otio: S2 UnknownChild at .
  [1]
