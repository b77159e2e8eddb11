Clips are written in the older family and read back. Each object is shown in the older family, and
then what differs after it was written in the newer family again.

  $ . "$TESTDIR/setup.sh"

Clips of collections and of a timeline in a collection:

  $ cat > a.otio <<'END'
  > {
  >   "OTIO_SCHEMA": "SerializableCollection.1", "name": "b",
  >   "children": [
  >     {
  >       "OTIO_SCHEMA": "Clip.2",
  >       "media_references": {
  >         "DEFAULT_MEDIA": {"OTIO_SCHEMA": "ExternalReference.1", "target_url": "u"}
  >       }
  >     },
  >     {
  >       "OTIO_SCHEMA": "SerializableCollection.1",
  >       "children": [
  >         {
  >           "OTIO_SCHEMA": "Timeline.1",
  >           "tracks": {"OTIO_SCHEMA": "Stack.1", "children": [{"OTIO_SCHEMA": "Clip.1"}]}
  >         }
  >       ]
  >     }
  >   ]
  > }
  > END
  $ otio convert --family 1 a.otio > b.otio
  $ cat b.otio
  {
      "OTIO_SCHEMA": "SerializableCollection.1",
      "metadata": {},
      "name": "b",
      "children": [
          {
              "OTIO_SCHEMA": "Clip.1",
              "metadata": {},
              "name": "",
              "source_range": null,
              "effects": [],
              "markers": [],
              "enabled": true,
              "media_reference": {
                  "OTIO_SCHEMA": "ExternalReference.1",
                  "metadata": {},
                  "name": "",
                  "available_range": null,
                  "target_url": "u"
              }
          },
          {
              "OTIO_SCHEMA": "SerializableCollection.1",
              "metadata": {},
              "name": "",
              "children": [
                  {
                      "OTIO_SCHEMA": "Timeline.1",
                      "metadata": {},
                      "name": "",
                      "global_start_time": null,
                      "tracks": {
                          "OTIO_SCHEMA": "Stack.1",
                          "metadata": {},
                          "name": "",
                          "source_range": null,
                          "effects": [],
                          "markers": [],
                          "enabled": true,
                          "children": [
                              {
                                  "OTIO_SCHEMA": "Clip.1",
                                  "metadata": {},
                                  "name": "",
                                  "source_range": null,
                                  "effects": [],
                                  "markers": [],
                                  "enabled": true,
                                  "media_reference": {
                                      "OTIO_SCHEMA": "MissingReference.1",
                                      "metadata": {},
                                      "name": "",
                                      "available_range": null
                                  }
                              }
                          ]
                      }
                  }
              ]
          }
      ]
  }
  $ otio convert b.otio > c.otio
  $ diff -U 0 b.otio c.otio | tail -n +3
  @@ -7 +7 @@
  -            "OTIO_SCHEMA": "Clip.1",
  +            "OTIO_SCHEMA": "Clip.2",
  @@ -14,7 +14,10 @@
  -            "media_reference": {
  -                "OTIO_SCHEMA": "ExternalReference.1",
  -                "metadata": {},
  -                "name": "",
  -                "available_range": null,
  -                "target_url": "u"
  -            }
  +            "media_references": {
  +                "DEFAULT_MEDIA": {
  +                    "OTIO_SCHEMA": "ExternalReference.1",
  +                    "metadata": {},
  +                    "name": "",
  +                    "available_range": null,
  +                    "target_url": "u"
  +                }
  +            },
  +            "active_media_reference_key": "DEFAULT_MEDIA"
  @@ -42 +45 @@
  -                                "OTIO_SCHEMA": "Clip.1",
  +                                "OTIO_SCHEMA": "Clip.2",
  @@ -49,6 +52,9 @@
  -                                "media_reference": {
  -                                    "OTIO_SCHEMA": "MissingReference.1",
  -                                    "metadata": {},
  -                                    "name": "",
  -                                    "available_range": null
  -                                }
  +                                "media_references": {
  +                                    "DEFAULT_MEDIA": {
  +                                        "OTIO_SCHEMA": "MissingReference.1",
  +                                        "metadata": {},
  +                                        "name": "",
  +                                        "available_range": null
  +                                    }
  +                                },
  +                                "active_media_reference_key": "DEFAULT_MEDIA"

Other members that have the names of the other family are kept:

  $ cat > a.otio <<'END'
  > {
  >   "OTIO_SCHEMA": "Clip.2", "range": 1,
  >   "media_references": {"DEFAULT_MEDIA": {"OTIO_SCHEMA": "Foo.7", "media_reference": [1.50]}},
  >   "color": "red",
  >   "markers": [
  >     {"OTIO_SCHEMA": "Marker.2", "media_reference": 0},
  >     {"OTIO_SCHEMA": "Foo.7", "range": 1}
  >   ],
  >   "effects": [{"OTIO_SCHEMA": "Effect.1", "range": 2}],
  >   "metadata": {"range": 3, "media_reference": 4}
  > }
  > END
  $ otio convert --family 1 a.otio > b.otio
  $ cat b.otio
  {
      "OTIO_SCHEMA": "Clip.1",
      "metadata": {
          "range": 3,
          "media_reference": 4
      },
      "name": "",
      "source_range": null,
      "effects": [
          {
              "OTIO_SCHEMA": "Effect.1",
              "metadata": {},
              "name": "",
              "effect_name": "",
              "range": 2
          }
      ],
      "markers": [
          {
              "OTIO_SCHEMA": "Marker.1",
              "metadata": {},
              "name": "",
              "range": null,
              "media_reference": 0
          },
          {
              "OTIO_SCHEMA": "Foo.7",
              "range": 1
          }
      ],
      "enabled": true,
      "media_reference": {
          "OTIO_SCHEMA": "Foo.7",
          "media_reference": [
              1.50
          ]
      },
      "range": 1,
      "color": "red"
  }
  $ otio convert b.otio > c.otio
  $ diff -U 0 b.otio c.otio | tail -n +3
  @@ -2 +2 @@
  -    "OTIO_SCHEMA": "Clip.1",
  +    "OTIO_SCHEMA": "Clip.2",
  @@ -20 +20 @@
  -            "OTIO_SCHEMA": "Marker.1",
  +            "OTIO_SCHEMA": "Marker.2",
  @@ -23 +23 @@
  -            "range": null,
  +            "marked_range": null,
  @@ -32,5 +32,7 @@
  -    "media_reference": {
  -        "OTIO_SCHEMA": "Foo.7",
  -        "media_reference": [
  -            1.50
  -        ]
  +    "media_references": {
  +        "DEFAULT_MEDIA": {
  +            "OTIO_SCHEMA": "Foo.7",
  +            "media_reference": [
  +                1.50
  +            ]
  +        }
  @@ -37,0 +40 @@
  +    "active_media_reference_key": "DEFAULT_MEDIA",

A list is written as a timeline of the older family:

  $ cat > a.edl <<'END'
  > 1 A1 V C 00:00:01:00 00:00:02:00 00:00:00:00 00:00:01:00
  > END
  $ otio convert --family 1 a.edl
  {
      "OTIO_SCHEMA": "Timeline.1",
      "metadata": {},
      "name": "",
      "global_start_time": {
          "OTIO_SCHEMA": "RationalTime.1",
          "rate": 24.0,
          "value": 0.0
      },
      "tracks": {
          "OTIO_SCHEMA": "Stack.1",
          "metadata": {},
          "name": "tracks",
          "source_range": null,
          "effects": [],
          "markers": [],
          "enabled": true,
          "children": [
              {
                  "OTIO_SCHEMA": "Track.1",
                  "metadata": {},
                  "name": "V",
                  "source_range": null,
                  "effects": [],
                  "markers": [],
                  "enabled": true,
                  "children": [
                      {
                          "OTIO_SCHEMA": "Clip.1",
                          "metadata": {
                              "cmx_3600": {
                                  "reel": "A1"
                              }
                          },
                          "name": "A1",
                          "source_range": {
                              "OTIO_SCHEMA": "TimeRange.1",
                              "duration": {
                                  "OTIO_SCHEMA": "RationalTime.1",
                                  "rate": 24.0,
                                  "value": 24.0
                              },
                              "start_time": {
                                  "OTIO_SCHEMA": "RationalTime.1",
                                  "rate": 24.0,
                                  "value": 24.0
                              }
                          },
                          "effects": [],
                          "markers": [],
                          "enabled": true,
                          "media_reference": {
                              "OTIO_SCHEMA": "MissingReference.1",
                              "metadata": {},
                              "name": "",
                              "available_range": null
                          }
                      }
                  ],
                  "kind": "Video"
              }
          ]
      }
  }
