Markers are written in the older family and read back. Each object is shown in the older family,
and then what differs after it was written in the newer family again.

  $ . "$TESTDIR/setup.sh"

Markers of a track and of a gap, one with a member that its schema doesn't have:

  $ cat > a.otio <<'END'
  > {
  >   "OTIO_SCHEMA": "Track.1",
  >   "markers": [{"OTIO_SCHEMA": "Marker.2", "name": "t", "color": "RED"}],
  >   "children": [
  >     {"OTIO_SCHEMA": "Gap.1", "markers": [{"OTIO_SCHEMA": "Marker.2", "name": "g"}]},
  >     {"OTIO_SCHEMA": "Transition.1"}
  >   ]
  > }
  > END
  $ otio convert --family 1 a.otio > b.otio
  $ cat b.otio
  {
      "OTIO_SCHEMA": "Track.1",
      "metadata": {},
      "name": "",
      "source_range": null,
      "effects": [],
      "markers": [
          {
              "OTIO_SCHEMA": "Marker.1",
              "metadata": {},
              "name": "t",
              "range": null,
              "color": "RED"
          }
      ],
      "enabled": true,
      "children": [
          {
              "OTIO_SCHEMA": "Gap.1",
              "metadata": {},
              "name": "",
              "source_range": null,
              "effects": [],
              "markers": [
                  {
                      "OTIO_SCHEMA": "Marker.1",
                      "metadata": {},
                      "name": "g",
                      "range": null
                  }
              ],
              "enabled": true
          },
          {
              "OTIO_SCHEMA": "Transition.1",
              "metadata": {},
              "name": "",
              "transition_type": "SMPTE_Dissolve",
              "in_offset": null,
              "out_offset": null
          }
      ],
      "kind": "Video"
  }
  $ otio convert b.otio > c.otio
  $ diff -U 0 b.otio c.otio | tail -n +3
  @@ -9 +9 @@
  -            "OTIO_SCHEMA": "Marker.1",
  +            "OTIO_SCHEMA": "Marker.2",
  @@ -12 +12 @@
  -            "range": null,
  +            "marked_range": null,
  @@ -26 +26 @@
  -                    "OTIO_SCHEMA": "Marker.1",
  +                    "OTIO_SCHEMA": "Marker.2",
  @@ -29 +29 @@
  -                    "range": null
  +                    "marked_range": null

Markers of stacks, and a clip without media:

  $ cat > a.otio <<'END'
  > {
  >   "OTIO_SCHEMA": "Timeline.1",
  >   "tracks": {
  >     "OTIO_SCHEMA": "Stack.1",
  >     "markers": [{"OTIO_SCHEMA": "Marker.2", "name": "r"}],
  >     "children": [
  >       {
  >         "OTIO_SCHEMA": "Stack.1",
  >         "markers": [{"OTIO_SCHEMA": "Marker.2", "name": "s"}],
  >         "children": [{"OTIO_SCHEMA": "Clip.1"}]
  >       }
  >     ]
  >   }
  > }
  > END
  $ otio convert --family 1 a.otio > b.otio
  $ cat b.otio
  {
      "OTIO_SCHEMA": "Timeline.1",
      "metadata": {},
      "name": "",
      "global_start_time": null,
      "tracks": {
          "OTIO_SCHEMA": "Stack.1",
          "metadata": {},
          "name": "",
          "source_range": null,
          "effects": [],
          "markers": [
              {
                  "OTIO_SCHEMA": "Marker.1",
                  "metadata": {},
                  "name": "r",
                  "range": null
              }
          ],
          "enabled": true,
          "children": [
              {
                  "OTIO_SCHEMA": "Stack.1",
                  "metadata": {},
                  "name": "",
                  "source_range": null,
                  "effects": [],
                  "markers": [
                      {
                          "OTIO_SCHEMA": "Marker.1",
                          "metadata": {},
                          "name": "s",
                          "range": null
                      }
                  ],
                  "enabled": true,
                  "children": [
                      {
                          "OTIO_SCHEMA": "Clip.1",
                          "metadata": {},
                          "name": "",
                          "source_range": null,
                          "effects": [],
                          "markers": [],
                          "enabled": true,
                          "media_reference": {
                              "OTIO_SCHEMA": "MissingReference.1",
                              "metadata": {},
                              "name": "",
                              "available_range": null
                          }
                      }
                  ]
              }
          ]
      }
  }
  $ otio convert b.otio > c.otio
  $ diff -U 0 b.otio c.otio | tail -n +3
  @@ -14 +14 @@
  -                "OTIO_SCHEMA": "Marker.1",
  +                "OTIO_SCHEMA": "Marker.2",
  @@ -17 +17 @@
  -                "range": null
  +                "marked_range": null
  @@ -30 +30 @@
  -                        "OTIO_SCHEMA": "Marker.1",
  +                        "OTIO_SCHEMA": "Marker.2",
  @@ -33 +33 @@
  -                        "range": null
  +                        "marked_range": null
  @@ -39 +39 @@
  -                        "OTIO_SCHEMA": "Clip.1",
  +                        "OTIO_SCHEMA": "Clip.2",
  @@ -46,6 +46,9 @@
  -                        "media_reference": {
  -                            "OTIO_SCHEMA": "MissingReference.1",
  -                            "metadata": {},
  -                            "name": "",
  -                            "available_range": null
  -                        }
  +                        "media_references": {
  +                            "DEFAULT_MEDIA": {
  +                                "OTIO_SCHEMA": "MissingReference.1",
  +                                "metadata": {},
  +                                "name": "",
  +                                "available_range": null
  +                            }
  +                        },
  +                        "active_media_reference_key": "DEFAULT_MEDIA"

A clip of the older family with a marker of the same family:

  $ cat > a.otio <<'END'
  > {
  >   "OTIO_SCHEMA": "Clip.1", "name": "c",
  >   "markers": [
  >     {
  >       "OTIO_SCHEMA": "Marker.1", "name": "k",
  >       "range": {
  >         "OTIO_SCHEMA": "TimeRange.1",
  >         "start_time": {"OTIO_SCHEMA": "RationalTime.1", "rate": 24, "value": 1},
  >         "duration": {"OTIO_SCHEMA": "RationalTime.1", "rate": 24, "value": 2}
  >       }
  >     }
  >   ]
  > }
  > END
  $ otio convert --family 1 a.otio > b.otio
  $ cat b.otio
  {
      "OTIO_SCHEMA": "Clip.1",
      "metadata": {},
      "name": "c",
      "source_range": null,
      "effects": [],
      "markers": [
          {
              "OTIO_SCHEMA": "Marker.1",
              "metadata": {},
              "name": "k",
              "range": {
                  "OTIO_SCHEMA": "TimeRange.1",
                  "duration": {
                      "OTIO_SCHEMA": "RationalTime.1",
                      "rate": 24.0,
                      "value": 2.0
                  },
                  "start_time": {
                      "OTIO_SCHEMA": "RationalTime.1",
                      "rate": 24.0,
                      "value": 1.0
                  }
              }
          }
      ],
      "enabled": true,
      "media_reference": {
          "OTIO_SCHEMA": "MissingReference.1",
          "metadata": {},
          "name": "",
          "available_range": null
      }
  }
  $ otio convert b.otio > c.otio
  $ diff -U 0 b.otio c.otio | tail -n +3
  @@ -2 +2 @@
  -    "OTIO_SCHEMA": "Clip.1",
  +    "OTIO_SCHEMA": "Clip.2",
  @@ -9 +9 @@
  -            "OTIO_SCHEMA": "Marker.1",
  +            "OTIO_SCHEMA": "Marker.2",
  @@ -12 +12 @@
  -            "range": {
  +            "marked_range": {
  @@ -28,6 +28,9 @@
  -    "media_reference": {
  -        "OTIO_SCHEMA": "MissingReference.1",
  -        "metadata": {},
  -        "name": "",
  -        "available_range": null
  -    }
  +    "media_references": {
  +        "DEFAULT_MEDIA": {
  +            "OTIO_SCHEMA": "MissingReference.1",
  +            "metadata": {},
  +            "name": "",
  +            "available_range": null
  +        }
  +    },
  +    "active_media_reference_key": "DEFAULT_MEDIA"
