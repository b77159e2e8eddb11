Notes of an event: a grade, and locators within the event and outside it.

Each list is written as a list, read into a timeline, and this timeline is written as a list. The
timeline is shown by what it has other than `plain.otio`, the timeline of the list without notes.

  $ . "$TESTDIR/setup.sh"

The list without notes, and its timeline:

  $ cat > plain.edl <<'END'
  > 1 TAPE1 V C 01:00:00:00 01:00:02:00 00:00:10:00 00:00:12:00
  > END
  $ otio convert --notes plain.edl > plain.otio
  $ cat plain.otio
  {
      "OTIO_SCHEMA": "Timeline.1",
      "metadata": {},
      "name": "",
      "global_start_time": {
          "OTIO_SCHEMA": "RationalTime.1",
          "rate": 24.0,
          "value": 240.0
      },
      "tracks": {
          "OTIO_SCHEMA": "Stack.1",
          "metadata": {},
          "name": "tracks",
          "source_range": null,
          "effects": [],
          "markers": [],
          "enabled": true,
          "children": [
              {
                  "OTIO_SCHEMA": "Track.1",
                  "metadata": {},
                  "name": "V",
                  "source_range": null,
                  "effects": [],
                  "markers": [],
                  "enabled": true,
                  "children": [
                      {
                          "OTIO_SCHEMA": "Clip.2",
                          "metadata": {
                              "cmx_3600": {
                                  "reel": "TAPE1"
                              }
                          },
                          "name": "TAPE1",
                          "source_range": {
                              "OTIO_SCHEMA": "TimeRange.1",
                              "duration": {
                                  "OTIO_SCHEMA": "RationalTime.1",
                                  "rate": 24.0,
                                  "value": 48.0
                              },
                              "start_time": {
                                  "OTIO_SCHEMA": "RationalTime.1",
                                  "rate": 24.0,
                                  "value": 86400.0
                              }
                          },
                          "effects": [],
                          "markers": [],
                          "enabled": true,
                          "media_references": {
                              "DEFAULT_MEDIA": {
                                  "OTIO_SCHEMA": "MissingReference.1",
                                  "metadata": {},
                                  "name": "",
                                  "available_range": null
                              }
                          },
                          "active_media_reference_key": "DEFAULT_MEDIA"
                      }
                  ],
                  "kind": "Video"
              }
          ]
      }
  }

A saturation and a locator:

  $ cat > a.edl <<'END'
  > 1 TAPE1 V C 01:00:00:00 01:00:02:00 00:00:10:00 00:00:12:00
  > * ASC_SAT: 0.9
  > * LOC: 00:00:11:00 RED fix sky
  > END
  $ otio convert --notes --to edl a.edl
  FCM: NON-DROP FRAME
  001  TAPE1    V     C        01:00:00:00 01:00:02:00 00:00:10:00 00:00:12:00
  * ASC_SAT: 0.9
  * LOC: 00:00:11:00 RED     fix sky
  $ otio convert --notes a.edl > x.otio
  $ diff -U 0 plain.otio x.otio | tail -n +3
  @@ -32,0 +33,3 @@
  +                            },
  +                            "cdl": {
  +                                "asc_sat": 0.9
  @@ -50 +53,21 @@
  -                        "markers": [],
  +                        "markers": [
  +                            {
  +                                "OTIO_SCHEMA": "Marker.2",
  +                                "metadata": {},
  +                                "name": "fix sky",
  +                                "marked_range": {
  +                                    "OTIO_SCHEMA": "TimeRange.1",
  +                                    "duration": {
  +                                        "OTIO_SCHEMA": "RationalTime.1",
  +                                        "rate": 24.0,
  +                                        "value": 1.0
  +                                    },
  +                                    "start_time": {
  +                                        "OTIO_SCHEMA": "RationalTime.1",
  +                                        "rate": 24.0,
  +                                        "value": 86424.0
  +                                    }
  +                                },
  +                                "color": "RED"
  +                            }
  +                        ],
  $ otio convert --notes --to edl x.otio
  FCM: NON-DROP FRAME
  001  TAPE1    V     C        01:00:00:00 01:00:02:00 00:00:10:00 00:00:12:00
  * FROM CLIP NAME: TAPE1
  * ASC_SAT: 0.9
  * LOC: 00:00:11:00 RED     fix sky

The same, with the saturation without its colon:

  $ cat > a.edl <<'END'
  > 1 TAPE1 V C 01:00:00:00 01:00:02:00 00:00:10:00 00:00:12:00
  > *ASC_SAT 0.9
  > * LOC: 00:00:11:00 RED fix sky
  > END
  $ otio convert --notes --to edl a.edl
  FCM: NON-DROP FRAME
  001  TAPE1    V     C        01:00:00:00 01:00:02:00 00:00:10:00 00:00:12:00
  * ASC_SAT: 0.9
  * LOC: 00:00:11:00 RED     fix sky
  $ otio convert --notes a.edl > x.otio
  $ diff -U 0 plain.otio x.otio | tail -n +3
  @@ -32,0 +33,3 @@
  +                            },
  +                            "cdl": {
  +                                "asc_sat": 0.9
  @@ -50 +53,21 @@
  -                        "markers": [],
  +                        "markers": [
  +                            {
  +                                "OTIO_SCHEMA": "Marker.2",
  +                                "metadata": {},
  +                                "name": "fix sky",
  +                                "marked_range": {
  +                                    "OTIO_SCHEMA": "TimeRange.1",
  +                                    "duration": {
  +                                        "OTIO_SCHEMA": "RationalTime.1",
  +                                        "rate": 24.0,
  +                                        "value": 1.0
  +                                    },
  +                                    "start_time": {
  +                                        "OTIO_SCHEMA": "RationalTime.1",
  +                                        "rate": 24.0,
  +                                        "value": 86424.0
  +                                    }
  +                                },
  +                                "color": "RED"
  +                            }
  +                        ],
  $ otio convert --notes --to edl x.otio
  FCM: NON-DROP FRAME
  001  TAPE1    V     C        01:00:00:00 01:00:02:00 00:00:10:00 00:00:12:00
  * FROM CLIP NAME: TAPE1
  * ASC_SAT: 0.9
  * LOC: 00:00:11:00 RED     fix sky

A locator after the last frame, and one before the first, are left out:

  $ cat > a.edl <<'END'
  > 1 TAPE1 V C 01:00:00:00 01:00:02:00 00:00:10:00 00:00:12:00
  > * ASC_SAT: 0.9
  > * LOC: 00:00:12:00 RED fix sky
  > * LOC: 00:00:09:23 RED x
  > END
  $ otio convert --notes --to edl a.edl
  FCM: NON-DROP FRAME
  001  TAPE1    V     C        01:00:00:00 01:00:02:00 00:00:10:00 00:00:12:00
  * ASC_SAT: 0.9
  $ otio convert --notes a.edl > x.otio
  $ diff -U 0 plain.otio x.otio | tail -n +3
  @@ -32,0 +33,3 @@
  +                            },
  +                            "cdl": {
  +                                "asc_sat": 0.9
  $ otio convert --notes --to edl x.otio
  FCM: NON-DROP FRAME
  001  TAPE1    V     C        01:00:00:00 01:00:02:00 00:00:10:00 00:00:12:00
  * FROM CLIP NAME: TAPE1
  * ASC_SAT: 0.9

Locators on the last and on the first frame:

  $ cat > a.edl <<'END'
  > 1 TAPE1 V C 01:00:00:00 01:00:02:00 00:00:10:00 00:00:12:00
  > * LOC: 00:00:11:23 CYAN z
  > * LOC: 00:00:10:00 MAGENTA a
  > END
  $ otio convert --notes --to edl a.edl
  FCM: NON-DROP FRAME
  001  TAPE1    V     C        01:00:00:00 01:00:02:00 00:00:10:00 00:00:12:00
  * LOC: 00:00:11:23 CYAN    z
  * LOC: 00:00:10:00 MAGENTA a
  $ otio convert --notes a.edl > x.otio
  $ diff -U 0 plain.otio x.otio | tail -n +3
  @@ -50 +50,40 @@
  -                        "markers": [],
  +                        "markers": [
  +                            {
  +                                "OTIO_SCHEMA": "Marker.2",
  +                                "metadata": {},
  +                                "name": "z",
  +                                "marked_range": {
  +                                    "OTIO_SCHEMA": "TimeRange.1",
  +                                    "duration": {
  +                                        "OTIO_SCHEMA": "RationalTime.1",
  +                                        "rate": 24.0,
  +                                        "value": 1.0
  +                                    },
  +                                    "start_time": {
  +                                        "OTIO_SCHEMA": "RationalTime.1",
  +                                        "rate": 24.0,
  +                                        "value": 86447.0
  +                                    }
  +                                },
  +                                "color": "CYAN"
  +                            },
  +                            {
  +                                "OTIO_SCHEMA": "Marker.2",
  +                                "metadata": {},
  +                                "name": "a",
  +                                "marked_range": {
  +                                    "OTIO_SCHEMA": "TimeRange.1",
  +                                    "duration": {
  +                                        "OTIO_SCHEMA": "RationalTime.1",
  +                                        "rate": 24.0,
  +                                        "value": 1.0
  +                                    },
  +                                    "start_time": {
  +                                        "OTIO_SCHEMA": "RationalTime.1",
  +                                        "rate": 24.0,
  +                                        "value": 86400.0
  +                                    }
  +                                },
  +                                "color": "MAGENTA"
  +                            }
  +                        ],
  $ otio convert --notes --to edl x.otio
  FCM: NON-DROP FRAME
  001  TAPE1    V     C        01:00:00:00 01:00:02:00 00:00:10:00 00:00:12:00
  * FROM CLIP NAME: TAPE1
  * LOC: 00:00:11:23 CYAN    z
  * LOC: 00:00:10:00 MAGENTA a
