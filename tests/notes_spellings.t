Notes whose numbers and names are kept as they are spelled.

Each list is written as a list, read into a timeline, and this timeline is written as a list. The
timeline is shown by what it has other than `plain.otio`, the timeline of the list without notes.

  $ . "$TESTDIR/setup.sh"

The list without notes, and its timeline:

  $ cat > plain.edl <<'END'
  > 1 TAPE1 V C 01:00:00:00 01:00:02:00 00:00:10:00 00:00:12:00
  > END
  $ otio convert --notes plain.edl > plain.otio

Numbers:

  $ cat > a.edl <<'END'
  > 1 TAPE1 V C 01:00:00:00 01:00:02:00 00:00:10:00 00:00:12:00
  > * ASC_SOP: (1.0 1E0 1e+0)(-0 0.00 -1.50E-3)(10e-1 1.10 1e400)
  > * ASC_SAT: 0.90e-0
  > END
  $ otio convert --notes --to edl a.edl
  FCM: NON-DROP FRAME
  001  TAPE1    V     C        01:00:00:00 01:00:02:00 00:00:10:00 00:00:12:00
  * ASC_SOP: (1.0 1E0 1e+0)(-0 0.00 -1.50E-3)(10e-1 1.10 1e400)
  * ASC_SAT: 0.90e-0
  $ otio convert --notes a.edl > x.otio
  $ diff -U 0 plain.otio x.otio | tail -n +3
  @@ -32,0 +33,20 @@
  +                            },
  +                            "cdl": {
  +                                "asc_sop": {
  +                                    "slope": [
  +                                        1.0,
  +                                        1E0,
  +                                        1e+0
  +                                    ],
  +                                    "offset": [
  +                                        -0,
  +                                        0.00,
  +                                        -1.50E-3
  +                                    ],
  +                                    "power": [
  +                                        10e-1,
  +                                        1.10,
  +                                        1e400
  +                                    ]
  +                                },
  +                                "asc_sat": 0.90e-0
  $ otio convert --notes --to edl x.otio
  FCM: NON-DROP FRAME
  001  TAPE1    V     C        01:00:00:00 01:00:02:00 00:00:10:00 00:00:12:00
  * FROM CLIP NAME: TAPE1
  * ASC_SOP: (1.0 1E0 1e+0)(-0 0.00 -1.50E-3)(10e-1 1.10 1e400)
  * ASC_SAT: 0.90e-0

Names in UTF-8, with a control, and with quotes:

  $ {
  >     printf '1 TAPE1 V C 01:00:00:00 01:00:02:00 00:00:10:00 00:00:12:00\n'
  >     printf '* LOC: 00:00:10:01 GREEN été → 🎬\n'
  >     printf '* LOC: 00:00:10:02 BLUE a\ab\n'
  >     printf '* LOC: 00:00:10:03 W "q\\"\n'
  > } > a.edl
  $ otio convert --notes --to edl a.edl
  FCM: NON-DROP FRAME
  001  TAPE1    V     C        01:00:00:00 01:00:02:00 00:00:10:00 00:00:12:00
  * LOC: 00:00:10:01 GREEN   été → 🎬
  * LOC: 00:00:10:02 BLUE    a b
  * LOC: 00:00:10:03 W       "q\"
  $ otio convert --notes a.edl > x.otio
  $ diff -U 0 plain.otio x.otio | tail -n +3
  @@ -50 +50,59 @@
  -                        "markers": [],
  +                        "markers": [
  +                            {
  +                                "OTIO_SCHEMA": "Marker.2",
  +                                "metadata": {},
  +                                "name": "été → 🎬",
  +                                "marked_range": {
  +                                    "OTIO_SCHEMA": "TimeRange.1",
  +                                    "duration": {
  +                                        "OTIO_SCHEMA": "RationalTime.1",
  +                                        "rate": 24.0,
  +                                        "value": 1.0
  +                                    },
  +                                    "start_time": {
  +                                        "OTIO_SCHEMA": "RationalTime.1",
  +                                        "rate": 24.0,
  +                                        "value": 86401.0
  +                                    }
  +                                },
  +                                "color": "GREEN"
  +                            },
  +                            {
  +                                "OTIO_SCHEMA": "Marker.2",
  +                                "metadata": {},
  +                                "name": "a\u0007b",
  +                                "marked_range": {
  +                                    "OTIO_SCHEMA": "TimeRange.1",
  +                                    "duration": {
  +                                        "OTIO_SCHEMA": "RationalTime.1",
  +                                        "rate": 24.0,
  +                                        "value": 1.0
  +                                    },
  +                                    "start_time": {
  +                                        "OTIO_SCHEMA": "RationalTime.1",
  +                                        "rate": 24.0,
  +                                        "value": 86402.0
  +                                    }
  +                                },
  +                                "color": "BLUE"
  +                            },
  +                            {
  +                                "OTIO_SCHEMA": "Marker.2",
  +                                "metadata": {},
  +                                "name": "\"q\\\"",
  +                                "marked_range": {
  +                                    "OTIO_SCHEMA": "TimeRange.1",
  +                                    "duration": {
  +                                        "OTIO_SCHEMA": "RationalTime.1",
  +                                        "rate": 24.0,
  +                                        "value": 1.0
  +                                    },
  +                                    "start_time": {
  +                                        "OTIO_SCHEMA": "RationalTime.1",
  +                                        "rate": 24.0,
  +                                        "value": 86403.0
  +                                    }
  +                                },
  +                                "color": "W"
  +                            }
  +                        ],
  $ otio convert --notes --to edl x.otio
  FCM: NON-DROP FRAME
  001  TAPE1    V     C        01:00:00:00 01:00:02:00 00:00:10:00 00:00:12:00
  * FROM CLIP NAME: TAPE1
  * LOC: 00:00:10:01 GREEN   été → 🎬
  * LOC: 00:00:10:02 BLUE    a b
  * LOC: 00:00:10:03 W       "q\"

Two locators on a frame, and one without a name:

  $ {
  >     printf '1 TAPE1 V C 01:00:00:00 01:00:02:00 00:00:10:00 00:00:12:00\n'
  >     printf '* LOC: 00:00:11:00 RED b\n'
  >     printf '* LOC: 00:00:11:00 RED a\n'
  >     printf '* LOC: 00:00:11:00 BLUE \n'
  > } > a.edl
  $ otio convert --notes --to edl a.edl
  FCM: NON-DROP FRAME
  001  TAPE1    V     C        01:00:00:00 01:00:02:00 00:00:10:00 00:00:12:00
  * LOC: 00:00:11:00 RED     b
  * LOC: 00:00:11:00 RED     a
  * LOC: 00:00:11:00 BLUE
  $ otio convert --notes a.edl > x.otio
  $ diff -U 0 plain.otio x.otio | tail -n +3
  @@ -50 +50,59 @@
  -                        "markers": [],
  +                        "markers": [
  +                            {
  +                                "OTIO_SCHEMA": "Marker.2",
  +                                "metadata": {},
  +                                "name": "b",
  +                                "marked_range": {
  +                                    "OTIO_SCHEMA": "TimeRange.1",
  +                                    "duration": {
  +                                        "OTIO_SCHEMA": "RationalTime.1",
  +                                        "rate": 24.0,
  +                                        "value": 1.0
  +                                    },
  +                                    "start_time": {
  +                                        "OTIO_SCHEMA": "RationalTime.1",
  +                                        "rate": 24.0,
  +                                        "value": 86424.0
  +                                    }
  +                                },
  +                                "color": "RED"
  +                            },
  +                            {
  +                                "OTIO_SCHEMA": "Marker.2",
  +                                "metadata": {},
  +                                "name": "a",
  +                                "marked_range": {
  +                                    "OTIO_SCHEMA": "TimeRange.1",
  +                                    "duration": {
  +                                        "OTIO_SCHEMA": "RationalTime.1",
  +                                        "rate": 24.0,
  +                                        "value": 1.0
  +                                    },
  +                                    "start_time": {
  +                                        "OTIO_SCHEMA": "RationalTime.1",
  +                                        "rate": 24.0,
  +                                        "value": 86424.0
  +                                    }
  +                                },
  +                                "color": "RED"
  +                            },
  +                            {
  +                                "OTIO_SCHEMA": "Marker.2",
  +                                "metadata": {},
  +                                "name": "",
  +                                "marked_range": {
  +                                    "OTIO_SCHEMA": "TimeRange.1",
  +                                    "duration": {
  +                                        "OTIO_SCHEMA": "RationalTime.1",
  +                                        "rate": 24.0,
  +                                        "value": 1.0
  +                                    },
  +                                    "start_time": {
  +                                        "OTIO_SCHEMA": "RationalTime.1",
  +                                        "rate": 24.0,
  +                                        "value": 86424.0
  +                                    }
  +                                },
  +                                "color": "BLUE"
  +                            }
  +                        ],
  $ otio convert --notes --to edl x.otio
  FCM: NON-DROP FRAME
  001  TAPE1    V     C        01:00:00:00 01:00:02:00 00:00:10:00 00:00:12:00
  * FROM CLIP NAME: TAPE1
  * LOC: 00:00:11:00 RED     b
  * LOC: 00:00:11:00 RED     a
  * LOC: 00:00:11:00 BLUE

The name of the clip after a note, and lines that end in CR LF:

  $ {
  >     printf '1 TAPE1 V C 01:00:00:00 01:00:02:00 00:00:10:00 00:00:12:00\n'
  >     printf '* ASC_SAT: 1\r\n'
  >     printf '* FROM CLIP NAME: TAPE1\r\n'
  >     printf '* LOC: 00:00:10:00 RED a\r\n'
  > } > a.edl
  $ otio convert --notes --to edl a.edl
  FCM: NON-DROP FRAME
  001  TAPE1    V     C        01:00:00:00 01:00:02:00 00:00:10:00 00:00:12:00
  * FROM CLIP NAME: TAPE1
  * ASC_SAT: 1
  * LOC: 00:00:10:00 RED     a
  $ otio convert --notes a.edl > x.otio
  $ diff -U 0 plain.otio x.otio | tail -n +3
  @@ -32,0 +33,3 @@
  +                            },
  +                            "cdl": {
  +                                "asc_sat": 1
  @@ -50 +53,21 @@
  -                        "markers": [],
  +                        "markers": [
  +                            {
  +                                "OTIO_SCHEMA": "Marker.2",
  +                                "metadata": {},
  +                                "name": "a",
  +                                "marked_range": {
  +                                    "OTIO_SCHEMA": "TimeRange.1",
  +                                    "duration": {
  +                                        "OTIO_SCHEMA": "RationalTime.1",
  +                                        "rate": 24.0,
  +                                        "value": 1.0
  +                                    },
  +                                    "start_time": {
  +                                        "OTIO_SCHEMA": "RationalTime.1",
  +                                        "rate": 24.0,
  +                                        "value": 86400.0
  +                                    }
  +                                },
  +                                "color": "RED"
  +                            }
  +                        ],
  $ otio convert --notes --to edl x.otio
  FCM: NON-DROP FRAME
  001  TAPE1    V     C        01:00:00:00 01:00:02:00 00:00:10:00 00:00:12:00
  * FROM CLIP NAME: TAPE1
  * ASC_SAT: 1
  * LOC: 00:00:10:00 RED     a
