Notes in every form that their lines may have.

Each list is written as a list, read into a timeline, and this timeline is written as a list. The
timeline is shown by what it has other than `plain.otio`, the timeline of the list without notes.

  $ . "$TESTDIR/setup.sh"

The list without notes, and its timeline:

  $ cat > plain.edl <<'END'
  > 1 TAPE1 V C 01:00:00:00 01:00:02:00 00:00:10:00 00:00:12:00
  > END
  $ otio convert --notes plain.edl > plain.otio

Spaces and tabs at all places:

  $ {
  >     printf '1 TAPE1 V C 01:00:00:00 01:00:02:00 00:00:10:00 00:00:12:00\n'
  >     printf ' \t*\t LOC \t:\t 00:00:11:00 \t RED \t a\t b \t\n'
  >     printf '\t*\tASC_SOP\t:\t(\t1\t2 \t3 )\t( 4  5\t6\t) \t(7 8 9) \n'
  >     printf ' * \tASC_SAT \t:\t 1 \t\n'
  > } > a.edl
  $ otio convert --notes --to edl a.edl
  FCM: NON-DROP FRAME
  001  TAPE1    V     C        01:00:00:00 01:00:02:00 00:00:10:00 00:00:12:00
  * LOC: 00:00:11:00 RED     a  b
  * ASC_SOP: (1 2 3)(4 5 6)(7 8 9)
  * ASC_SAT: 1
  $ otio convert --notes a.edl > x.otio
  $ diff -U 0 plain.otio x.otio | tail -n +3
  @@ -32,0 +33,20 @@
  +                            },
  +                            "cdl": {
  +                                "asc_sop": {
  +                                    "slope": [
  +                                        1,
  +                                        2,
  +                                        3
  +                                    ],
  +                                    "offset": [
  +                                        4,
  +                                        5,
  +                                        6
  +                                    ],
  +                                    "power": [
  +                                        7,
  +                                        8,
  +                                        9
  +                                    ]
  +                                },
  +                                "asc_sat": 1
  @@ -50 +70,21 @@
  -                        "markers": [],
  +                        "markers": [
  +                            {
  +                                "OTIO_SCHEMA": "Marker.2",
  +                                "metadata": {},
  +                                "name": "a\t b",
  +                                "marked_range": {
  +                                    "OTIO_SCHEMA": "TimeRange.1",
  +                                    "duration": {
  +                                        "OTIO_SCHEMA": "RationalTime.1",
  +                                        "rate": 24.0,
  +                                        "value": 1.0
  +                                    },
  +                                    "start_time": {
  +                                        "OTIO_SCHEMA": "RationalTime.1",
  +                                        "rate": 24.0,
  +                                        "value": 86424.0
  +                                    }
  +                                },
  +                                "color": "RED"
  +                            }
  +                        ],
  $ otio convert --notes --to edl x.otio
  FCM: NON-DROP FRAME
  001  TAPE1    V     C        01:00:00:00 01:00:02:00 00:00:10:00 00:00:12:00
  * FROM CLIP NAME: TAPE1
  * ASC_SOP: (1 2 3)(4 5 6)(7 8 9)
  * ASC_SAT: 1
  * LOC: 00:00:11:00 RED     a  b

No spaces where none are needed:

  $ cat > a.edl <<'END'
  > 1 TAPE1 V C 01:00:00:00 01:00:02:00 00:00:10:00 00:00:12:00
  > *LOC:00:00:11:00 RED a
  > *ASC_SOP(1 2 3)(4 5 6)(7 8 9)
  > *ASC_SAT:1
  > END
  $ otio convert --notes --to edl a.edl
  FCM: NON-DROP FRAME
  001  TAPE1    V     C        01:00:00:00 01:00:02:00 00:00:10:00 00:00:12:00
  * LOC: 00:00:11:00 RED     a
  * ASC_SOP: (1 2 3)(4 5 6)(7 8 9)
  * ASC_SAT: 1
  $ otio convert --notes a.edl > x.otio
  $ diff -U 0 plain.otio x.otio | tail -n +3
  @@ -32,0 +33,20 @@
  +                            },
  +                            "cdl": {
  +                                "asc_sop": {
  +                                    "slope": [
  +                                        1,
  +                                        2,
  +                                        3
  +                                    ],
  +                                    "offset": [
  +                                        4,
  +                                        5,
  +                                        6
  +                                    ],
  +                                    "power": [
  +                                        7,
  +                                        8,
  +                                        9
  +                                    ]
  +                                },
  +                                "asc_sat": 1
  @@ -50 +70,21 @@
  -                        "markers": [],
  +                        "markers": [
  +                            {
  +                                "OTIO_SCHEMA": "Marker.2",
  +                                "metadata": {},
  +                                "name": "a",
  +                                "marked_range": {
  +                                    "OTIO_SCHEMA": "TimeRange.1",
  +                                    "duration": {
  +                                        "OTIO_SCHEMA": "RationalTime.1",
  +                                        "rate": 24.0,
  +                                        "value": 1.0
  +                                    },
  +                                    "start_time": {
  +                                        "OTIO_SCHEMA": "RationalTime.1",
  +                                        "rate": 24.0,
  +                                        "value": 86424.0
  +                                    }
  +                                },
  +                                "color": "RED"
  +                            }
  +                        ],
  $ otio convert --notes --to edl x.otio
  FCM: NON-DROP FRAME
  001  TAPE1    V     C        01:00:00:00 01:00:02:00 00:00:10:00 00:00:12:00
  * FROM CLIP NAME: TAPE1
  * ASC_SOP: (1 2 3)(4 5 6)(7 8 9)
  * ASC_SAT: 1
  * LOC: 00:00:11:00 RED     a

No colons where none are needed, and a locator without a name:

  $ {
  >     printf '1 TAPE1 V C 01:00:00:00 01:00:02:00 00:00:10:00 00:00:12:00\n'
  >     printf '*ASC_SOP\t(1 2 3) (4 5 6)\t(7 8 9)\n'
  >     printf '*ASC_SAT\t1\n'
  >     printf '*LOC:00:00:10:05 RED\n'
  > } > a.edl
  $ otio convert --notes --to edl a.edl
  FCM: NON-DROP FRAME
  001  TAPE1    V     C        01:00:00:00 01:00:02:00 00:00:10:00 00:00:12:00
  * ASC_SOP: (1 2 3)(4 5 6)(7 8 9)
  * ASC_SAT: 1
  * LOC: 00:00:10:05 RED
  $ otio convert --notes a.edl > x.otio
  $ diff -U 0 plain.otio x.otio | tail -n +3
  @@ -32,0 +33,20 @@
  +                            },
  +                            "cdl": {
  +                                "asc_sop": {
  +                                    "slope": [
  +                                        1,
  +                                        2,
  +                                        3
  +                                    ],
  +                                    "offset": [
  +                                        4,
  +                                        5,
  +                                        6
  +                                    ],
  +                                    "power": [
  +                                        7,
  +                                        8,
  +                                        9
  +                                    ]
  +                                },
  +                                "asc_sat": 1
  @@ -50 +70,21 @@
  -                        "markers": [],
  +                        "markers": [
  +                            {
  +                                "OTIO_SCHEMA": "Marker.2",
  +                                "metadata": {},
  +                                "name": "",
  +                                "marked_range": {
  +                                    "OTIO_SCHEMA": "TimeRange.1",
  +                                    "duration": {
  +                                        "OTIO_SCHEMA": "RationalTime.1",
  +                                        "rate": 24.0,
  +                                        "value": 1.0
  +                                    },
  +                                    "start_time": {
  +                                        "OTIO_SCHEMA": "RationalTime.1",
  +                                        "rate": 24.0,
  +                                        "value": 86405.0
  +                                    }
  +                                },
  +                                "color": "RED"
  +                            }
  +                        ],
  $ otio convert --notes --to edl x.otio
  FCM: NON-DROP FRAME
  001  TAPE1    V     C        01:00:00:00 01:00:02:00 00:00:10:00 00:00:12:00
  * FROM CLIP NAME: TAPE1
  * ASC_SOP: (1 2 3)(4 5 6)(7 8 9)
  * ASC_SAT: 1
  * LOC: 00:00:10:05 RED

Lines that have the form of no note:

  $ cat > a.edl <<'END'
  > 1 TAPE1 V C 01:00:00:00 01:00:02:00 00:00:10:00 00:00:12:00
  > * LOC 00:00:11:00 RED x
  > * LOC: 00:00:11:00 red x
  > * LOC: 00:00:11:00 MAGENTAS x
  > * LOC: 0:00:11:00 RED x
  > * LOC: 00:00:11:24 RED x
  > * LOC: 00:00:11:00RED x
  > * LOC: 00:00:11:00 RED1 x
  > LOC: 00:00:11:00 RED x
  > * loc: 00:00:11:00 RED x
  > * ASC_SAT0.9
  > * ASC_SAT: .9
  > * ASC_SAT: 01
  > * ASC_SAT: +1
  > * ASC_SAT: 1 2
  > * ASC_SAT:
  > * ASC_SOP: (1 1 1)(0 0 0)
  > * ASC_SOP: (1 1)(0 0 0)(1 1 1)
  > * ASC_SOP: (1,1,1)(0 0 0)(1 1 1)
  > * ASC_SOP: (1 1 1)(0 0 0)(1 1 1) x
  > END
  $ otio convert --notes --to edl a.edl
  FCM: NON-DROP FRAME
  001  TAPE1    V     C        01:00:00:00 01:00:02:00 00:00:10:00 00:00:12:00
  $ otio convert --notes a.edl > x.otio
  $ diff -U 0 plain.otio x.otio | tail -n +3
  $ otio convert --notes --to edl x.otio
  FCM: NON-DROP FRAME
  001  TAPE1    V     C        01:00:00:00 01:00:02:00 00:00:10:00 00:00:12:00
  * FROM CLIP NAME: TAPE1

All grades stay on a list. On a timeline the last saturation and the last numbers count:

  $ cat > a.edl <<'END'
  > 1 TAPE1 V C 01:00:00:00 01:00:02:00 00:00:10:00 00:00:12:00
  > * ASC_SAT: 1
  > * ASC_SOP: (1 1 1)(0 0 0)(1 1 1)
  > * ASC_SOP: (2 2 2)(0 0 0)(1 1 1)
  > * ASC_SAT: 2
  > END
  $ otio convert --notes --to edl a.edl
  FCM: NON-DROP FRAME
  001  TAPE1    V     C        01:00:00:00 01:00:02:00 00:00:10:00 00:00:12:00
  * ASC_SAT: 1
  * ASC_SOP: (1 1 1)(0 0 0)(1 1 1)
  * ASC_SOP: (2 2 2)(0 0 0)(1 1 1)
  * ASC_SAT: 2
  $ otio convert --notes a.edl > x.otio
  $ diff -U 0 plain.otio x.otio | tail -n +3
  @@ -32,0 +33,20 @@
  +                            },
  +                            "cdl": {
  +                                "asc_sop": {
  +                                    "slope": [
  +                                        2,
  +                                        2,
  +                                        2
  +                                    ],
  +                                    "offset": [
  +                                        0,
  +                                        0,
  +                                        0
  +                                    ],
  +                                    "power": [
  +                                        1,
  +                                        1,
  +                                        1
  +                                    ]
  +                                },
  +                                "asc_sat": 2
  $ otio convert --notes --to edl x.otio
  FCM: NON-DROP FRAME
  001  TAPE1    V     C        01:00:00:00 01:00:02:00 00:00:10:00 00:00:12:00
  * FROM CLIP NAME: TAPE1
  * ASC_SOP: (2 2 2)(0 0 0)(1 1 1)
  * ASC_SAT: 2
