Notes whose frames are kept, at other speeds and in the mode of their labels.

Each list is written as a list, read into a timeline, and this timeline is written as a list. The
timeline is shown by what it has other than `plain.otio`, the timeline of the list without notes.

  $ . "$TESTDIR/setup.sh"

The list without notes, and its timeline:

  $ cat > plain.edl <<'END'
  > 1 TAPE1 V C 01:00:00:00 01:00:02:00 00:00:10:00 00:00:12:00
  > END
  $ otio convert --notes plain.edl > plain.otio

A locator of a clip at twice its speed:

  $ cat > a.edl <<'END'
  > 1 TAPE1 V C 01:00:00:00 01:00:02:00 00:00:10:00 00:00:12:00
  > M2 TAPE1 048.0 01:00:00:00
  > * LOC: 00:00:10:13 RED a
  > END
  $ otio convert --notes --to edl a.edl
  FCM: NON-DROP FRAME
  001  TAPE1    V     C        01:00:00:00 01:00:02:00 00:00:10:00 00:00:12:00
  M2   TAPE1    048.0                01:00:00:00
  * LOC: 00:00:10:13 RED     a
  $ otio convert --notes a.edl > x.otio
  $ diff -U 0 plain.otio x.otio | tail -n +3
  @@ -49,2 +49,30 @@
  -                        "effects": [],
  -                        "markers": [],
  +                        "effects": [
  +                            {
  +                                "OTIO_SCHEMA": "LinearTimeWarp.1",
  +                                "metadata": {},
  +                                "name": "",
  +                                "effect_name": "",
  +                                "time_scalar": 2.0
  +                            }
  +                        ],
  +                        "markers": [
  +                            {
  +                                "OTIO_SCHEMA": "Marker.2",
  +                                "metadata": {},
  +                                "name": "a",
  +                                "marked_range": {
  +                                    "OTIO_SCHEMA": "TimeRange.1",
  +                                    "duration": {
  +                                        "OTIO_SCHEMA": "RationalTime.1",
  +                                        "rate": 24.0,
  +                                        "value": 1.0
  +                                    },
  +                                    "start_time": {
  +                                        "OTIO_SCHEMA": "RationalTime.1",
  +                                        "rate": 24.0,
  +                                        "value": 86426.0
  +                                    }
  +                                },
  +                                "color": "RED"
  +                            }
  +                        ],
  $ otio convert --notes --to edl x.otio
  FCM: NON-DROP FRAME
  001  TAPE1    V     C        01:00:00:00 01:00:04:00 00:00:10:00 00:00:12:00
  M2   TAPE1    048.0                01:00:00:00
  * FROM CLIP NAME: TAPE1
  * LOC: 00:00:10:13 RED     a

Locators of a clip at three fifths of its speed. The source frame of the first is already shown a
frame earlier, and that frame is written:

  $ cat > a.edl <<'END'
  > 1 TAPE1 V C 01:00:00:00 01:00:02:00 00:00:10:00 00:00:12:00
  > M2 TAPE1 014.4 01:00:00:00
  > * LOC: 00:00:10:03 RED a
  > * LOC: 00:00:10:04 RED b
  > END
  $ otio convert --notes --to edl a.edl
  FCM: NON-DROP FRAME
  001  TAPE1    V     C        01:00:00:00 01:00:02:00 00:00:10:00 00:00:12:00
  M2   TAPE1    014.4                01:00:00:00
  * LOC: 00:00:10:03 RED     a
  * LOC: 00:00:10:04 RED     b
  $ otio convert --notes a.edl > x.otio
  $ diff -U 0 plain.otio x.otio | tail -n +3
  @@ -49,2 +49,49 @@
  -                        "effects": [],
  -                        "markers": [],
  +                        "effects": [
  +                            {
  +                                "OTIO_SCHEMA": "LinearTimeWarp.1",
  +                                "metadata": {},
  +                                "name": "",
  +                                "effect_name": "",
  +                                "time_scalar": 0.6
  +                            }
  +                        ],
  +                        "markers": [
  +                            {
  +                                "OTIO_SCHEMA": "Marker.2",
  +                                "metadata": {},
  +                                "name": "a",
  +                                "marked_range": {
  +                                    "OTIO_SCHEMA": "TimeRange.1",
  +                                    "duration": {
  +                                        "OTIO_SCHEMA": "RationalTime.1",
  +                                        "rate": 24.0,
  +                                        "value": 1.0
  +                                    },
  +                                    "start_time": {
  +                                        "OTIO_SCHEMA": "RationalTime.1",
  +                                        "rate": 24.0,
  +                                        "value": 86401.0
  +                                    }
  +                                },
  +                                "color": "RED"
  +                            },
  +                            {
  +                                "OTIO_SCHEMA": "Marker.2",
  +                                "metadata": {},
  +                                "name": "b",
  +                                "marked_range": {
  +                                    "OTIO_SCHEMA": "TimeRange.1",
  +                                    "duration": {
  +                                        "OTIO_SCHEMA": "RationalTime.1",
  +                                        "rate": 24.0,
  +                                        "value": 1.0
  +                                    },
  +                                    "start_time": {
  +                                        "OTIO_SCHEMA": "RationalTime.1",
  +                                        "rate": 24.0,
  +                                        "value": 86402.0
  +                                    }
  +                                },
  +                                "color": "RED"
  +                            }
  +                        ],
  $ otio convert --notes --to edl x.otio
  FCM: NON-DROP FRAME
  001  TAPE1    V     C        01:00:00:00 01:00:01:04 00:00:10:00 00:00:12:00
  M2   TAPE1    014.4                01:00:00:00
  * FROM CLIP NAME: TAPE1
  * LOC: 00:00:10:02 RED     a
  * LOC: 00:00:10:04 RED     b

A locator of a freeze frame goes to its first frame:

  $ cat > a.edl <<'END'
  > 1 TAPE1 V C 01:00:00:00 01:00:02:00 00:00:10:00 00:00:12:00
  > M2 TAPE1 000.0 01:00:00:00
  > * LOC: 00:00:11:00 RED a
  > END
  $ otio convert --notes --to edl a.edl
  FCM: NON-DROP FRAME
  001  TAPE1    V     C        01:00:00:00 01:00:02:00 00:00:10:00 00:00:12:00
  M2   TAPE1    000.0                01:00:00:00
  * LOC: 00:00:11:00 RED     a
  $ otio convert --notes a.edl > x.otio
  $ diff -U 0 plain.otio x.otio | tail -n +3
  @@ -49,2 +49,30 @@
  -                        "effects": [],
  -                        "markers": [],
  +                        "effects": [
  +                            {
  +                                "OTIO_SCHEMA": "FreezeFrame.1",
  +                                "metadata": {},
  +                                "name": "",
  +                                "effect_name": "",
  +                                "time_scalar": 0.0
  +                            }
  +                        ],
  +                        "markers": [
  +                            {
  +                                "OTIO_SCHEMA": "Marker.2",
  +                                "metadata": {},
  +                                "name": "a",
  +                                "marked_range": {
  +                                    "OTIO_SCHEMA": "TimeRange.1",
  +                                    "duration": {
  +                                        "OTIO_SCHEMA": "RationalTime.1",
  +                                        "rate": 24.0,
  +                                        "value": 1.0
  +                                    },
  +                                    "start_time": {
  +                                        "OTIO_SCHEMA": "RationalTime.1",
  +                                        "rate": 24.0,
  +                                        "value": 86400.0
  +                                    }
  +                                },
  +                                "color": "RED"
  +                            }
  +                        ],
  $ otio convert --notes --to edl x.otio
  FCM: NON-DROP FRAME
  001  TAPE1    V     C        01:00:00:00 01:00:00:00 00:00:10:00 00:00:12:00
  M2   TAPE1    000.0                01:00:00:00
  * FROM CLIP NAME: TAPE1
  * LOC: 00:00:10:00 RED     a

A locator has the mode of the last FCM line:

  $ cat > a.edl <<'END'
  > 1 TAPE1 V C 01:00:00:00 01:00:02:00 00:00:10:00 00:00:12:00
  > FCM: DROP FRAME
  > * LOC: 00:00:10:00 RED a
  > FCM: NON-DROP FRAME
  > * LOC: 00:00:10:00 RED b
  > END
  $ otio convert --notes --to edl a.edl
  FCM: NON-DROP FRAME
  001  TAPE1    V     C        01:00:00:00 01:00:02:00 00:00:10:00 00:00:12:00
  * LOC: 00:00:10:00 RED     b
  $ otio convert --notes a.edl > x.otio
  $ diff -U 0 plain.otio x.otio | tail -n +3
  @@ -50 +50,21 @@
  -                        "markers": [],
  +                        "markers": [
  +                            {
  +                                "OTIO_SCHEMA": "Marker.2",
  +                                "metadata": {},
  +                                "name": "b",
  +                                "marked_range": {
  +                                    "OTIO_SCHEMA": "TimeRange.1",
  +                                    "duration": {
  +                                        "OTIO_SCHEMA": "RationalTime.1",
  +                                        "rate": 24.0,
  +                                        "value": 1.0
  +                                    },
  +                                    "start_time": {
  +                                        "OTIO_SCHEMA": "RationalTime.1",
  +                                        "rate": 24.0,
  +                                        "value": 86400.0
  +                                    }
  +                                },
  +                                "color": "RED"
  +                            }
  +                        ],
  $ otio convert --notes --to edl x.otio
  FCM: NON-DROP FRAME
  001  TAPE1    V     C        01:00:00:00 01:00:02:00 00:00:10:00 00:00:12:00
  * FROM CLIP NAME: TAPE1
  * LOC: 00:00:10:00 RED     b
