Notes of events of several channels go with each of them.

  $ . "$TESTDIR/setup.sh"

A list, and the list of its timeline:

  $ cat > a.edl <<'END'
  > 1 A AA/V C 00:00:00:00 00:00:02:00 00:00:10:00 00:00:12:00
  > * ASC_SAT: 1
  > * LOC: 00:00:11:00 RED x
  > END
  $ otio convert --notes --to edl a.edl
  FCM: NON-DROP FRAME
  001  A        V     C        00:00:00:00 00:00:02:00 00:00:10:00 00:00:12:00
  * ASC_SAT: 1
  * LOC: 00:00:11:00 RED     x
  002  A        A     C        00:00:00:00 00:00:02:00 00:00:10:00 00:00:12:00
  * ASC_SAT: 1
  * LOC: 00:00:11:00 RED     x
  003  A        A2    C        00:00:00:00 00:00:02:00 00:00:10:00 00:00:12:00
  * ASC_SAT: 1
  * LOC: 00:00:11:00 RED     x
  $ otio convert --notes a.edl > x.otio
  $ otio convert --notes --to edl x.otio
  FCM: NON-DROP FRAME
  001  A        V     C        00:00:00:00 00:00:02:00 00:00:10:00 00:00:12:00
  * FROM CLIP NAME: A
  * ASC_SAT: 1
  * LOC: 00:00:11:00 RED     x
  002  A        A     C        00:00:00:00 00:00:02:00 00:00:10:00 00:00:12:00
  * FROM CLIP NAME: A
  * ASC_SAT: 1
  * LOC: 00:00:11:00 RED     x
  003  A        A2    C        00:00:00:00 00:00:02:00 00:00:10:00 00:00:12:00
  * FROM CLIP NAME: A
  * ASC_SAT: 1
  * LOC: 00:00:11:00 RED     x

On a timeline each track has the clip with its notes. First the timeline of one channel, shown by
what it has other than that of the event without speed and notes:

  $ cat > plain.edl <<'END'
  > 1 TAPE1 V C 01:00:00:00 01:00:02:00 00:00:10:00 00:00:12:00
  > END
  $ cat > one.edl <<'END'
  > 1 TAPE1 V C 01:00:00:00 01:00:02:00 00:00:10:00 00:00:12:00
  > M2 TAPE1 048.0 01:00:00:00
  > * ASC_SAT: 1
  > * LOC: 00:00:10:13 RED a
  > END
  $ otio convert --notes plain.edl > plain.otio
  $ otio convert --notes one.edl > one.otio
  $ diff -U 0 plain.otio one.otio | tail -n +3
  @@ -32,0 +33,3 @@
  +                            },
  +                            "cdl": {
  +                                "asc_sat": 1
  @@ -49,2 +52,30 @@
  -                        "effects": [],
  -                        "markers": [],
  +                        "effects": [
  +                            {
  +                                "OTIO_SCHEMA": "LinearTimeWarp.1",
  +                                "metadata": {},
  +                                "name": "",
  +                                "effect_name": "",
  +                                "time_scalar": 2.0
  +                            }
  +                        ],
  +                        "markers": [
  +                            {
  +                                "OTIO_SCHEMA": "Marker.2",
  +                                "metadata": {},
  +                                "name": "a",
  +                                "marked_range": {
  +                                    "OTIO_SCHEMA": "TimeRange.1",
  +                                    "duration": {
  +                                        "OTIO_SCHEMA": "RationalTime.1",
  +                                        "rate": 24.0,
  +                                        "value": 1.0
  +                                    },
  +                                    "start_time": {
  +                                        "OTIO_SCHEMA": "RationalTime.1",
  +                                        "rate": 24.0,
  +                                        "value": 86426.0
  +                                    }
  +                                },
  +                                "color": "RED"
  +                            }
  +                        ],

The same list with two channels has another track:

  $ cat > two.edl <<'END'
  > 1 TAPE1 B C 01:00:00:00 01:00:02:00 00:00:10:00 00:00:12:00
  > M2 TAPE1 048.0 01:00:00:00
  > * ASC_SAT: 1
  > * LOC: 00:00:10:13 RED a
  > END
  $ otio convert --notes two.edl > two.otio
  $ diff -U 0 one.otio two.otio | tail -n +3
  @@ -94,0 +95,77 @@
  +            },
  +            {
  +                "OTIO_SCHEMA": "Track.1",
  +                "metadata": {},
  +                "name": "A",
  +                "source_range": null,
  +                "effects": [],
  +                "markers": [],
  +                "enabled": true,
  +                "children": [
  +                    {
  +                        "OTIO_SCHEMA": "Clip.2",
  +                        "metadata": {
  +                            "cmx_3600": {
  +                                "reel": "TAPE1"
  +                            },
  +                            "cdl": {
  +                                "asc_sat": 1
  +                            }
  +                        },
  +                        "name": "TAPE1",
  +                        "source_range": {
  +                            "OTIO_SCHEMA": "TimeRange.1",
  +                            "duration": {
  +                                "OTIO_SCHEMA": "RationalTime.1",
  +                                "rate": 24.0,
  +                                "value": 48.0
  +                            },
  +                            "start_time": {
  +                                "OTIO_SCHEMA": "RationalTime.1",
  +                                "rate": 24.0,
  +                                "value": 86400.0
  +                            }
  +                        },
  +                        "effects": [
  +                            {
  +                                "OTIO_SCHEMA": "LinearTimeWarp.1",
  +                                "metadata": {},
  +                                "name": "",
  +                                "effect_name": "",
  +                                "time_scalar": 2.0
  +                            }
  +                        ],
  +                        "markers": [
  +                            {
  +                                "OTIO_SCHEMA": "Marker.2",
  +                                "metadata": {},
  +                                "name": "a",
  +                                "marked_range": {
  +                                    "OTIO_SCHEMA": "TimeRange.1",
  +                                    "duration": {
  +                                        "OTIO_SCHEMA": "RationalTime.1",
  +                                        "rate": 24.0,
  +                                        "value": 1.0
  +                                    },
  +                                    "start_time": {
  +                                        "OTIO_SCHEMA": "RationalTime.1",
  +                                        "rate": 24.0,
  +                                        "value": 86426.0
  +                                    }
  +                                },
  +                                "color": "RED"
  +                            }
  +                        ],
  +                        "enabled": true,
  +                        "media_references": {
  +                            "DEFAULT_MEDIA": {
  +                                "OTIO_SCHEMA": "MissingReference.1",
  +                                "metadata": {},
  +                                "name": "",
  +                                "available_range": null
  +                            }
  +                        },
  +                        "active_media_reference_key": "DEFAULT_MEDIA"
  +                    }
  +                ],
  +                "kind": "Audio"
