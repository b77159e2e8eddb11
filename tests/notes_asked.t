The option `--notes` of `convert` reads and writes notes.

  $ . "$TESTDIR/setup.sh"

A list with notes, and its timeline in both families:

  $ cat > a.edl <<'END'
  > TITLE: ONE
  > FCM: NON-DROP FRAME
  > 
  > 7 TAPE1 V C 01:00:00:00 01:00:02:00 00:00:10:00 00:00:12:00
  > * ASC_SAT: 0.9
  > * LOC: 00:00:11:00 RED fix sky
  > END
  $ otio convert --notes a.edl
  {
      "OTIO_SCHEMA": "Timeline.1",
      "metadata": {},
      "name": "ONE",
      "global_start_time": {
          "OTIO_SCHEMA": "RationalTime.1",
          "rate": 24.0,
          "value": 240.0
      },
      "tracks": {
          "OTIO_SCHEMA": "Stack.1",
          "metadata": {},
          "name": "tracks",
          "source_range": null,
          "effects": [],
          "markers": [],
          "enabled": true,
          "children": [
              {
                  "OTIO_SCHEMA": "Track.1",
                  "metadata": {},
                  "name": "V",
                  "source_range": null,
                  "effects": [],
                  "markers": [],
                  "enabled": true,
                  "children": [
                      {
                          "OTIO_SCHEMA": "Clip.2",
                          "metadata": {
                              "cmx_3600": {
                                  "reel": "TAPE1"
                              },
                              "cdl": {
                                  "asc_sat": 0.9
                              }
                          },
                          "name": "TAPE1",
                          "source_range": {
                              "OTIO_SCHEMA": "TimeRange.1",
                              "duration": {
                                  "OTIO_SCHEMA": "RationalTime.1",
                                  "rate": 24.0,
                                  "value": 48.0
                              },
                              "start_time": {
                                  "OTIO_SCHEMA": "RationalTime.1",
                                  "rate": 24.0,
                                  "value": 86400.0
                              }
                          },
                          "effects": [],
                          "markers": [
                              {
                                  "OTIO_SCHEMA": "Marker.2",
                                  "metadata": {},
                                  "name": "fix sky",
                                  "marked_range": {
                                      "OTIO_SCHEMA": "TimeRange.1",
                                      "duration": {
                                          "OTIO_SCHEMA": "RationalTime.1",
                                          "rate": 24.0,
                                          "value": 1.0
                                      },
                                      "start_time": {
                                          "OTIO_SCHEMA": "RationalTime.1",
                                          "rate": 24.0,
                                          "value": 86424.0
                                      }
                                  },
                                  "color": "RED"
                              }
                          ],
                          "enabled": true,
                          "media_references": {
                              "DEFAULT_MEDIA": {
                                  "OTIO_SCHEMA": "MissingReference.1",
                                  "metadata": {},
                                  "name": "",
                                  "available_range": null
                              }
                          },
                          "active_media_reference_key": "DEFAULT_MEDIA"
                      }
                  ],
                  "kind": "Video"
              }
          ]
      }
  }
  $ otio convert a.edl --notes --family 1 > old.otio
  $ otio convert --notes a.edl > x.otio
  $ diff -U 0 x.otio old.otio | tail -n +3
  @@ -29 +29 @@
  -                        "OTIO_SCHEMA": "Clip.2",
  +                        "OTIO_SCHEMA": "Clip.1",
  @@ -55 +55 @@
  -                                "OTIO_SCHEMA": "Marker.2",
  +                                "OTIO_SCHEMA": "Marker.1",
  @@ -58 +58 @@
  -                                "marked_range": {
  +                                "range": {
  @@ -75,9 +75,6 @@
  -                        "media_references": {
  -                            "DEFAULT_MEDIA": {
  -                                "OTIO_SCHEMA": "MissingReference.1",
  -                                "metadata": {},
  -                                "name": "",
  -                                "available_range": null
  -                            }
  -                        },
  -                        "active_media_reference_key": "DEFAULT_MEDIA"
  +                        "media_reference": {
  +                            "OTIO_SCHEMA": "MissingReference.1",
  +                            "metadata": {},
  +                            "name": "",
  +                            "available_range": null
  +                        }

A saturation without its colon is read as well:

  $ cat > bare.edl <<'END'
  > TITLE: ONE
  > FCM: NON-DROP FRAME
  > 
  > 7 TAPE1 V C 01:00:00:00 01:00:02:00 00:00:10:00 00:00:12:00
  > *ASC_SAT 0.9
  > * LOC: 00:00:11:00 RED fix sky
  > END
  $ otio convert --notes bare.edl > written
  $ cmp written x.otio
  $ otio convert --notes --to edl bare.edl
  TITLE: ONE
  FCM: NON-DROP FRAME
  001  TAPE1    V     C        01:00:00:00 01:00:02:00 00:00:10:00 00:00:12:00
  * ASC_SAT: 0.9
  * LOC: 00:00:11:00 RED     fix sky

Timelines of both families are written as the newer one:

  $ otio convert --notes x.otio > written
  $ cmp written x.otio
  $ otio convert --notes old.otio > written
  $ cmp written x.otio

Both, and the list, are written as lists:

  $ otio convert --notes --to edl x.otio
  TITLE: ONE
  FCM: NON-DROP FRAME
  001  TAPE1    V     C        01:00:00:00 01:00:02:00 00:00:10:00 00:00:12:00
  * FROM CLIP NAME: TAPE1
  * ASC_SAT: 0.9
  * LOC: 00:00:11:00 RED     fix sky
  $ otio convert --notes --to edl old.otio
  TITLE: ONE
  FCM: NON-DROP FRAME
  001  TAPE1    V     C        01:00:00:00 01:00:02:00 00:00:10:00 00:00:12:00
  * FROM CLIP NAME: TAPE1
  * ASC_SAT: 0.9
  * LOC: 00:00:11:00 RED     fix sky
  $ otio convert --notes --to edl a.edl
  TITLE: ONE
  FCM: NON-DROP FRAME
  001  TAPE1    V     C        01:00:00:00 01:00:02:00 00:00:10:00 00:00:12:00
  * ASC_SAT: 0.9
  * LOC: 00:00:11:00 RED     fix sky

A wide list has its notes too:

  $ otio convert --notes --wide --to edl a.edl
  TITLE: ONE
  FCM: NON-DROP FRAME
  000001  TAPE1                            V     C        01:00:00:00 01:00:02:00 00:00:10:00 00:00:12:00
  * ASC_SAT: 0.9
  * LOC: 00:00:11:00 RED     fix sky

A locator outside of its event is left out:

  $ cat > outside.edl <<'END'
  > TITLE: ONE
  > FCM: NON-DROP FRAME
  > 
  > 7 TAPE1 V C 01:00:00:00 01:00:02:00 00:00:10:00 00:00:12:00
  > * ASC_SAT: 0.9
  > * LOC: 00:00:12:00 RED fix sky
  > END
  $ otio convert --notes --to edl outside.edl
  TITLE: ONE
  FCM: NON-DROP FRAME
  001  TAPE1    V     C        01:00:00:00 01:00:02:00 00:00:10:00 00:00:12:00
  * ASC_SAT: 0.9

A locator whose source frame lies a million seconds from the start, or later, is left out:

  $ cat > far.edl <<'END'
  > 1 A V C 00:00:00:00 23:00:00:00 00:00:00:00 23:00:00:00
  > M2 A 999.9 00:00:00:00
  > * LOC: 07:00:00:00 RED x
  > * LOC: 06:00:00:00 RED y
  > END
  $ otio convert --notes --to edl far.edl
  FCM: NON-DROP FRAME
  001  A        V     C        00:00:00:00 23:00:00:00 00:00:00:00 23:00:00:00
  M2   A        999.9                00:00:00:00
  * LOC: 06:00:00:00 RED     y

Without the option no note is written:

  $ otio convert --to edl a.edl
  TITLE: ONE
  FCM: NON-DROP FRAME
  001  TAPE1    V     C        01:00:00:00 01:00:02:00 00:00:10:00 00:00:12:00

JSON has no notes:

  $ printf '1' > one.json
  $ otio convert --to json --notes one.json
  1

What is refused without the option is refused with it:

  $ cat > bad.edl <<'END'
  > * ASC_SAT: 1
  > 1 A
  > END
  $ otio convert --notes bad.edl
  otio: bad.edl: L1 Form at 2
  [1]
  $ otio convert --notes --drop --to edl a.edl
  otio: a.edl: N15 NoTimecode at .
  [1]
  $ otio convert --notes gone.edl
  otio: gone.edl: absent
  [3]

No other command has the option, and it is given once and without a value:

  $ otio convert --notes 2> usage
  [2]
  $ head -c 28 usage
  otio: usage
    otio convert [ (no-eol)
  $ wc -l < usage
  10
  $ otio convert --notes --notes a.edl 2> message
  [2]
  $ cmp message usage
  $ otio convert --notes 1 a.edl 2> message
  [2]
  $ cmp message usage
  $ otio convert --note a.edl 2> message
  [2]
  $ cmp message usage
  $ otio cat --notes a.edl 2> message
  [2]
  $ cmp message usage
  $ otio stat --notes a.edl 2> message
  [2]
  $ cmp message usage
  $ otio tool --notes a.edl 2> message
  [2]
  $ cmp message usage
  $ otio frames --notes a.edl 2> message
  [2]
  $ cmp message usage
  $ otio edit --notes --script s.txt a.edl 2> message
  [2]
  $ cmp message usage
  $ otio drill --notes 1 1 2> message
  [2]
  $ cmp message usage
  $ otio pull --notes a.edl 2> message
  [2]
  $ cmp message usage
  $ otio media --notes a.edl 2> message
  [2]
  $ cmp message usage
