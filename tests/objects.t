Objects are read and written again, with every member that their schema has.

  $ . "$TESTDIR/setup.sh"

A gap has its members in their order, then the members that its schema doesn't have:

  $ cat > a.otio <<'END'
  > {"enabled": false, "b": [1.50], "OTIO_SCHEMA": "Gap.01", "name": null, "a": {}}
  > END
  $ otio convert a.otio
  {
      "OTIO_SCHEMA": "Gap.1",
      "metadata": {},
      "name": "",
      "source_range": null,
      "effects": [],
      "markers": [],
      "enabled": false,
      "b": [
          1.50
      ],
      "a": {}
  }

Each time of a range keeps its rate:

  $ cat > a.otio <<'END'
  > {
  >   "OTIO_SCHEMA": "Gap.1",
  >   "source_range": {
  >     "OTIO_SCHEMA": "TimeRange.1",
  >     "start_time": {"OTIO_SCHEMA": "RationalTime.1", "value": 1, "rate": 25},
  >     "duration": {"OTIO_SCHEMA": "RationalTime.1", "rate": 24, "value": 2.5}
  >   }
  > }
  > END
  $ otio convert a.otio
  {
      "OTIO_SCHEMA": "Gap.1",
      "metadata": {},
      "name": "",
      "source_range": {
          "OTIO_SCHEMA": "TimeRange.1",
          "duration": {
              "OTIO_SCHEMA": "RationalTime.1",
              "rate": 24.0,
              "value": 2.5
          },
          "start_time": {
              "OTIO_SCHEMA": "RationalTime.1",
              "rate": 25.0,
              "value": 1.0
          }
      },
      "effects": [],
      "markers": [],
      "enabled": true
  }

Effects and markers of all kinds. A freeze frame has the speed 0:

  $ cat > a.otio <<'END'
  > {
  >   "OTIO_SCHEMA": "Clip.2",
  >   "effects": [
  >     {"OTIO_SCHEMA": "LinearTimeWarp.1", "time_scalar": -1.5},
  >     {"OTIO_SCHEMA": "FreezeFrame.1", "time_scalar": 2},
  >     {"OTIO_SCHEMA": "TimeEffect.1", "name": "a"},
  >     {"OTIO_SCHEMA": "Effect.1", "effect_name": "b"},
  >     {"OTIO_SCHEMA": "Foo.7"}
  >   ],
  >   "markers": [{"OTIO_SCHEMA": "Marker.2"}, 7]
  > }
  > END
  $ otio convert a.otio
  {
      "OTIO_SCHEMA": "Clip.2",
      "metadata": {},
      "name": "",
      "source_range": null,
      "effects": [
          {
              "OTIO_SCHEMA": "LinearTimeWarp.1",
              "metadata": {},
              "name": "",
              "effect_name": "",
              "time_scalar": -1.5
          },
          {
              "OTIO_SCHEMA": "FreezeFrame.1",
              "metadata": {},
              "name": "",
              "effect_name": "",
              "time_scalar": 0.0
          },
          {
              "OTIO_SCHEMA": "TimeEffect.1",
              "metadata": {},
              "name": "a",
              "effect_name": ""
          },
          {
              "OTIO_SCHEMA": "Effect.1",
              "metadata": {},
              "name": "",
              "effect_name": "b"
          },
          {
              "OTIO_SCHEMA": "Foo.7"
          }
      ],
      "markers": [
          {
              "OTIO_SCHEMA": "Marker.2",
              "metadata": {},
              "name": "",
              "marked_range": null
          },
          7
      ],
      "enabled": true,
      "media_references": {},
      "active_media_reference_key": "DEFAULT_MEDIA"
  }

Media of all kinds. `null` is a missing reference:

  $ cat > a.otio <<'END'
  > {
  >   "OTIO_SCHEMA": "Clip.2",
  >   "media_references": {
  >     "a": {"OTIO_SCHEMA": "ExternalReference.1", "target_url": "u"},
  >     "b": null,
  >     "c": {"OTIO_SCHEMA": "GeneratorReference.1", "generator_kind": "bars"},
  >     "d": {"OTIO_SCHEMA": "ImageSequenceReference.1", "name_suffix": ".exr", "frame_step": 1}
  >   },
  >   "active_media_reference_key": "a"
  > }
  > END
  $ otio convert a.otio
  {
      "OTIO_SCHEMA": "Clip.2",
      "metadata": {},
      "name": "",
      "source_range": null,
      "effects": [],
      "markers": [],
      "enabled": true,
      "media_references": {
          "a": {
              "OTIO_SCHEMA": "ExternalReference.1",
              "metadata": {},
              "name": "",
              "available_range": null,
              "target_url": "u"
          },
          "b": {
              "OTIO_SCHEMA": "MissingReference.1",
              "metadata": {},
              "name": "",
              "available_range": null
          },
          "c": {
              "OTIO_SCHEMA": "GeneratorReference.1",
              "metadata": {},
              "name": "",
              "available_range": null,
              "generator_kind": "bars"
          },
          "d": {
              "OTIO_SCHEMA": "ImageSequenceReference.1",
              "metadata": {},
              "name": "",
              "available_range": null,
              "target_url_base": "",
              "name_prefix": "",
              "name_suffix": ".exr",
              "frame_step": 1
          }
      },
      "active_media_reference_key": "a"
  }

A track of sound with a transition:

  $ cat > a.otio <<'END'
  > {
  >   "OTIO_SCHEMA": "Track.1", "kind": "Audio",
  >   "children": [
  >     {
  >       "OTIO_SCHEMA": "Transition.1",
  >       "in_offset": {"OTIO_SCHEMA": "RationalTime.1", "rate": 23.976023976023978, "value": 6}
  >     },
  >     {"OTIO_SCHEMA": "Gap.1"}
  >   ]
  > }
  > END
  $ otio convert a.otio
  {
      "OTIO_SCHEMA": "Track.1",
      "metadata": {},
      "name": "",
      "source_range": null,
      "effects": [],
      "markers": [],
      "enabled": true,
      "children": [
          {
              "OTIO_SCHEMA": "Transition.1",
              "metadata": {},
              "name": "",
              "transition_type": "SMPTE_Dissolve",
              "in_offset": {
                  "OTIO_SCHEMA": "RationalTime.1",
                  "rate": 23.976023976023978,
                  "value": 6.0
              },
              "out_offset": null
          },
          {
              "OTIO_SCHEMA": "Gap.1",
              "metadata": {},
              "name": "",
              "source_range": null,
              "effects": [],
              "markers": [],
              "enabled": true
          }
      ],
      "kind": "Audio"
  }

A timeline of a nested stack:

  $ cat > a.otio <<'END'
  > {
  >   "OTIO_SCHEMA": "Timeline.1", "color": "red",
  >   "global_start_time": {"OTIO_SCHEMA": "RationalTime.1", "rate": 24, "value": 86400},
  >   "tracks": {"OTIO_SCHEMA": "Stack.1", "children": [{"OTIO_SCHEMA": "Stack.1"}]}
  > }
  > END
  $ otio convert a.otio
  {
      "OTIO_SCHEMA": "Timeline.1",
      "metadata": {},
      "name": "",
      "global_start_time": {
          "OTIO_SCHEMA": "RationalTime.1",
          "rate": 24.0,
          "value": 86400.0
      },
      "tracks": {
          "OTIO_SCHEMA": "Stack.1",
          "metadata": {},
          "name": "",
          "source_range": null,
          "effects": [],
          "markers": [],
          "enabled": true,
          "children": [
              {
                  "OTIO_SCHEMA": "Stack.1",
                  "metadata": {},
                  "name": "",
                  "source_range": null,
                  "effects": [],
                  "markers": [],
                  "enabled": true,
                  "children": []
              }
          ]
      },
      "color": "red"
  }

A collection of a timeline and of a collection:

  $ cat > a.otio <<'END'
  > {
  >   "OTIO_SCHEMA": "SerializableCollection.1",
  >   "children": [{"OTIO_SCHEMA": "Timeline.1"}, {"OTIO_SCHEMA": "SerializableCollection.1"}]
  > }
  > END
  $ otio convert a.otio
  {
      "OTIO_SCHEMA": "SerializableCollection.1",
      "metadata": {},
      "name": "",
      "children": [
          {
              "OTIO_SCHEMA": "Timeline.1",
              "metadata": {},
              "name": "",
              "global_start_time": null,
              "tracks": {
                  "OTIO_SCHEMA": "Stack.1",
                  "metadata": {},
                  "name": "tracks",
                  "source_range": null,
                  "effects": [],
                  "markers": [],
                  "enabled": true,
                  "children": []
              }
          },
          {
              "OTIO_SCHEMA": "SerializableCollection.1",
              "metadata": {},
              "name": "",
              "children": []
          }
      ]
  }

A timeline of 1000 gaps is read and written. An output that fails is named:

  $ python3 - > a.otio <<'END'
  > gaps = ", ".join(['{"OTIO_SCHEMA": "Gap.1"}'] * 1000)
  > print('{"OTIO_SCHEMA": "Timeline.1", "tracks": {"OTIO_SCHEMA": "Stack.1", "children": [')
  > print(gaps + "]}}")
  > END
  $ otio convert a.otio > out
  $ grep -c Gap.1 out
  1000
  $ otio convert a.otio > /dev/full
  otio: output failed
  [4]
