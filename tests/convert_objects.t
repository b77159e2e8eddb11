Objects are read and written again, and what is refused leaves the output as it was.

  $ . "$TESTDIR/setup.sh"

A clip of an older schema is written in the current one:

  $ cat > c.otio <<'END'
  > {"OTIO_SCHEMA": "Clip.1", "name": "s", "media_reference": null}
  > END
  $ otio convert c.otio
  {
      "OTIO_SCHEMA": "Clip.2",
      "metadata": {},
      "name": "s",
      "source_range": null,
      "effects": [],
      "markers": [],
      "enabled": true,
      "media_references": {
          "DEFAULT_MEDIA": {
              "OTIO_SCHEMA": "MissingReference.1",
              "metadata": {},
              "name": "",
              "available_range": null
          }
      },
      "active_media_reference_key": "DEFAULT_MEDIA"
  }

So it is with the formats named, and where it goes into a file:

  $ otio convert c.otio > clip.otio
  $ otio convert --from otio --to otio c.otio > named.otio
  $ cmp named.otio clip.otio
  $ otio convert --to otio -o o.otio c.otio
  $ cmp o.otio clip.otio

An effect of an unknown schema is kept as it is:

  $ cat > effect.otio <<'END'
  > {"OTIO_SCHEMA": "Gap.1", "effects": [{"OTIO_SCHEMA": "Foo.7", "b": [1.50]}]}
  > END
  $ otio convert effect.otio
  {
      "OTIO_SCHEMA": "Gap.1",
      "metadata": {},
      "name": "",
      "source_range": null,
      "effects": [
          {
              "OTIO_SCHEMA": "Foo.7",
              "b": [
                  1.50
              ]
          }
      ],
      "markers": [],
      "enabled": true
  }

A name is written without escapes:

  $ printf '%s' '{"OTIO_SCHEMA":"Gap.1","name":"\u00e9","metadata":{"a":[1.50,null]}}' > gap.otio
  $ otio convert gap.otio
  {
      "OTIO_SCHEMA": "Gap.1",
      "metadata": {
          "a": [
              1.50,
              null
          ]
      },
      "name": "é",
      "source_range": null,
      "effects": [],
      "markers": [],
      "enabled": true
  }

The highest rate, and 2^53 + 1, which no floating-point number of 64 bits has, are kept:

  $ cat > far.otio <<'END'
  > {
  >   "OTIO_SCHEMA": "Gap.1",
  >   "source_range": {
  >     "OTIO_SCHEMA": "TimeRange.1",
  >     "duration": {"OTIO_SCHEMA": "RationalTime.1", "rate": 24, "value": 0},
  >     "start_time": {
  >       "OTIO_SCHEMA": "RationalTime.1", "rate": 705600000000.0, "value": 9007199254740993.0
  >     }
  >   }
  > }
  > END
  $ otio convert far.otio
  {
      "OTIO_SCHEMA": "Gap.1",
      "metadata": {},
      "name": "",
      "source_range": {
          "OTIO_SCHEMA": "TimeRange.1",
          "duration": {
              "OTIO_SCHEMA": "RationalTime.1",
              "rate": 24.0,
              "value": 0.0
          },
          "start_time": {
              "OTIO_SCHEMA": "RationalTime.1",
              "rate": 705600000000.0,
              "value": 9007199254740993.0
          }
      },
      "effects": [],
      "markers": [],
      "enabled": true
  }

The same start, with a length at a rate that is none:

  $ sed 's/"rate": 24,/"rate": 29.5,/' far.otio > rate.otio
  $ otio convert rate.otio
  otio: rate.otio: S5 Rate at .
  [1]

A schema that is newer than the known one. No output is begun, and a file of its name stays:

  $ printf '{"OTIO_SCHEMA":"Clip.3"}' > newer.otio
  $ otio convert newer.otio
  otio: newer.otio: S3 Newer at .
  [1]
  $ otio convert -o new.otio newer.otio
  otio: newer.otio: S3 Newer at .
  [1]
  $ test ! -e new.otio
  $ echo before > old.otio
  $ otio convert -o old.otio newer.otio
  otio: newer.otio: S3 Newer at .
  [1]
  $ cat old.otio
  before

A child of an unknown schema is named by its place:

  $ cat > child.otio <<'END'
  > {
  >   "OTIO_SCHEMA": "Timeline.1",
  >   "tracks": {
  >     "OTIO_SCHEMA": "Stack.1",
  >     "children": [
  >       {
  >         "OTIO_SCHEMA": "Track.1",
  >         "children": [{"OTIO_SCHEMA": "Gap.1"}, {"OTIO_SCHEMA": "Foo.7", "b": [1.50]}]
  >       }
  >     ]
  >   }
  > }
  > END
  $ otio convert child.otio
  otio: child.otio: S2 UnknownChild at 0/1
  [1]

A member of another kind than its schema says is named:

  $ printf '{"OTIO_SCHEMA":"Gap.1","enabled":1}' > enabled.otio
  $ otio convert enabled.otio
  otio: enabled.otio: S4 Field at . enabled
  [1]

JSON that is no object, and a text that is no JSON:

  $ printf '[1,2]' > list.json
  $ otio convert list.json
  otio: list.json: S1 NotObject at .
  [1]
  $ printf '[1,]' > comma.json
  $ otio convert comma.json
  otio: comma.json: J1 Syntax at 3
  [1]
