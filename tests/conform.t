Lists are conformed, also against media lists.

  $ . "$TESTDIR/setup.sh"

A cut, and a dissolve whose outgoing side goes on with it:

  $ cat > on.edl <<'END'
  > 1 A1 V C 00:00:01:00 00:00:02:00 00:00:00:00 00:00:01:00
  > 2 A1 V C 00:00:02:00 00:00:02:00 00:00:01:00 00:00:01:00
  > 2 A1 V D 012 00:00:05:00 00:00:05:00 00:00:01:00 00:00:02:00
  > M2 A1 024.0 00:00:02:00
  > M2 A1 000.0 00:00:05:00
  > END
  $ otio frames --start 30 --count 1 on.edl
  30 0 mix(dissolve 1/2 reel:"A1"@54 reel:"A1"@120)

The same, with an outgoing side that begins a second later:

  $ cat > later.edl <<'END'
  > 1 A1 V C 00:00:01:00 00:00:02:00 00:00:00:00 00:00:01:00
  > 2 A1 V C 00:00:03:00 00:00:03:00 00:00:01:00 00:00:01:00
  > 2 A1 V D 012 00:00:05:00 00:00:05:00 00:00:01:00 00:00:02:00
  > M2 A1 024.0 00:00:03:00
  > M2 A1 000.0 00:00:05:00
  > END
  $ otio frames --start 30 --count 1 later.edl
  30 0 mix(dissolve 1/2 reel:"A1"@78 reel:"A1"@120)

A cut and a dissolve of two reels, with the media list of both:

  $ cat > fifteen.edl <<'END'
  > TITLE: fifteen
  > FCM: NON-DROP FRAME
  > 001  A1       V     C        00:00:04:04 00:00:05:18 01:00:00:00 01:00:01:14
  > * FROM CLIP NAME: a
  > 002  A1       V     C        00:00:05:18 00:00:05:18 01:00:01:14 01:00:01:14
  > 002  B1       V     D    024 00:00:07:22 00:00:10:08 01:00:01:14 01:00:04:00
  > * FROM CLIP NAME: a
  > * TO CLIP NAME: b
  > END
  $ printf '# reels\nA1\t24\t0\t1000\ta.mov\nB1\t24\t0\t1000\tb.mov\n' > m.txt
  $ otio frames --media m.txt --start 86443 --count 1 fifteen.edl
  86443 0 mix(dissolve 5/24 url:"a.mov"@143 url:"b.mov"@195)

A media list with a reel twice, and one with a URL twice:

  $ printf 'A1\t24\t0\t1000\ta.mov\nA1\t24\t0\t1000\tb.mov\n' > reel.txt
  $ otio convert --media reel.txt fifteen.edl
  otio: reel.txt: M2 ReelTwice at 2
  [1]
  $ printf 'A\t24\t0\t1\tu\nB\t24\t0\t1\tu\n' > url.txt
  $ otio convert --media url.txt fifteen.edl
  otio: url.txt: M3 UrlTwice at 2
  [1]

A media list without one of the reels:

  $ printf 'A1\t24\t0\t1000\ta.mov\n' > a.txt
  $ otio convert --media a.txt fifteen.edl
  otio: fifteen.edl: Q1 NoReel at 6
  [1]

A reel at another rate than that of the list:

  $ printf 'A1\t25\t0\t1000\ta.mov\nB1\t24\t0\t1000\tb.mov\n' > other.txt
  $ otio frames --media other.txt fifteen.edl
  otio: fifteen.edl: Q3 Rate at 3
  [1]

Media that end before the event does:

  $ printf 'A1\t24\t0\t1000\ta.mov\nB1\t24\t0\t200\tb.mov\n' > short.txt
  $ otio convert --to otio fifteen.edl --media short.txt
  otio: fifteen.edl: Q2 Outside at 6
  [1]

A list without events becomes a timeline without tracks. Its name doesn't end with `.edl`:

  $ echo 'TITLE: EMPTY' > empty
  $ otio convert --from edl --rate 25 empty
  {
      "OTIO_SCHEMA": "Timeline.1",
      "metadata": {},
      "name": "EMPTY",
      "global_start_time": {
          "OTIO_SCHEMA": "RationalTime.1",
          "rate": 25.0,
          "value": 0.0
      },
      "tracks": {
          "OTIO_SCHEMA": "Stack.1",
          "metadata": {},
          "name": "tracks",
          "source_range": null,
          "effects": [],
          "markers": [],
          "enabled": true,
          "children": []
      }
  }

A list with an event, and the media list of its reel:

  $ cat > a.edl <<'END'
  > TITLE: ONE
  > FCM: NON-DROP FRAME
  > 
  > 7 TAPE1 V C 01:00:00:00 01:00:02:00 00:00:10:00 00:00:12:00
  > END
  $ printf 'TAPE1\t24\t0\t200000\ta.mov\n' > tape.txt
  $ otio frames --media tape.txt --count 2 a.edl
  240 0 url:"a.mov"@86400
  241 0 url:"a.mov"@86401
  $ otio convert --media tape.txt a.edl
  {
      "OTIO_SCHEMA": "Timeline.1",
      "metadata": {},
      "name": "ONE",
      "global_start_time": {
          "OTIO_SCHEMA": "RationalTime.1",
          "rate": 24.0,
          "value": 240.0
      },
      "tracks": {
          "OTIO_SCHEMA": "Stack.1",
          "metadata": {},
          "name": "tracks",
          "source_range": null,
          "effects": [],
          "markers": [],
          "enabled": true,
          "children": [
              {
                  "OTIO_SCHEMA": "Track.1",
                  "metadata": {},
                  "name": "V",
                  "source_range": null,
                  "effects": [],
                  "markers": [],
                  "enabled": true,
                  "children": [
                      {
                          "OTIO_SCHEMA": "Clip.2",
                          "metadata": {
                              "cmx_3600": {
                                  "reel": "TAPE1"
                              }
                          },
                          "name": "TAPE1",
                          "source_range": {
                              "OTIO_SCHEMA": "TimeRange.1",
                              "duration": {
                                  "OTIO_SCHEMA": "RationalTime.1",
                                  "rate": 24.0,
                                  "value": 48.0
                              },
                              "start_time": {
                                  "OTIO_SCHEMA": "RationalTime.1",
                                  "rate": 24.0,
                                  "value": 86400.0
                              }
                          },
                          "effects": [],
                          "markers": [],
                          "enabled": true,
                          "media_references": {
                              "DEFAULT_MEDIA": {
                                  "OTIO_SCHEMA": "ExternalReference.1",
                                  "metadata": {},
                                  "name": "",
                                  "available_range": {
                                      "OTIO_SCHEMA": "TimeRange.1",
                                      "duration": {
                                          "OTIO_SCHEMA": "RationalTime.1",
                                          "rate": 24.0,
                                          "value": 200000.0
                                      },
                                      "start_time": {
                                          "OTIO_SCHEMA": "RationalTime.1",
                                          "rate": 24.0,
                                          "value": 0.0
                                      }
                                  },
                                  "target_url": "a.mov"
                              }
                          },
                          "active_media_reference_key": "DEFAULT_MEDIA"
                      }
                  ],
                  "kind": "Video"
              }
          ]
      }
  }

The list is read first. A fault of it is named before an absent media list is:

  $ otio convert --media gone.txt gone.edl
  otio: gone.edl: absent
  [3]
  $ otio convert --media gone.txt on.edl
  otio: gone.txt: absent
  [3]
  $ otio convert --from edl --rate 100 --media gone.txt on.edl
  otio: on.edl: L2 Timecode at 1
  [1]
