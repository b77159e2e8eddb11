Clips and markers are written in the older family, `Clip.1` and `Marker.1`, and what has no form
there is refused.

  $ . "$TESTDIR/setup.sh"

A clip is written in the older family, with the one reference of media that it has:

  $ cat > c.otio <<'END'
  > {"OTIO_SCHEMA": "Clip.1", "name": "s", "media_reference": null}
  > END
  $ otio convert --family 1 c.otio
  {
      "OTIO_SCHEMA": "Clip.1",
      "metadata": {},
      "name": "s",
      "source_range": null,
      "effects": [],
      "markers": [],
      "enabled": true,
      "media_reference": {
          "OTIO_SCHEMA": "MissingReference.1",
          "metadata": {},
          "name": "",
          "available_range": null
      }
  }

`convert` writes the newer family unless the older one is asked for:

  $ otio convert --family 1 c.otio > old.otio
  $ otio convert old.otio
  {
      "OTIO_SCHEMA": "Clip.2",
      "metadata": {},
      "name": "s",
      "source_range": null,
      "effects": [],
      "markers": [],
      "enabled": true,
      "media_references": {
          "DEFAULT_MEDIA": {
              "OTIO_SCHEMA": "MissingReference.1",
              "metadata": {},
              "name": "",
              "available_range": null
          }
      },
      "active_media_reference_key": "DEFAULT_MEDIA"
  }

The same with the newer family asked for, and with the older one again:

  $ otio convert --family 2 old.otio > new.otio
  $ otio convert old.otio > out && cmp out new.otio
  $ otio convert --family 1 old.otio > out && cmp out old.otio

A marker is written in the older family. Members and objects of unknown schemas are kept:

  $ cat > marks.otio <<'END'
  > {
  >   "OTIO_SCHEMA": "Gap.1",
  >   "markers": [
  >     {"OTIO_SCHEMA": "Marker.2", "name": "m", "note": [1.50]},
  >     {"OTIO_SCHEMA": "Foo.7", "range": 1}
  >   ]
  > }
  > END
  $ otio convert --family 1 marks.otio
  {
      "OTIO_SCHEMA": "Gap.1",
      "metadata": {},
      "name": "",
      "source_range": null,
      "effects": [],
      "markers": [
          {
              "OTIO_SCHEMA": "Marker.1",
              "metadata": {},
              "name": "m",
              "range": null,
              "note": [
                  1.50
              ]
          },
          {
              "OTIO_SCHEMA": "Foo.7",
              "range": 1
          }
      ],
      "enabled": true
  }

JSON and lists have no family:

  $ cat > bare.otio <<'END'
  > {"OTIO_SCHEMA": "Clip.2"}
  > END
  $ otio convert --to json --family 1 bare.otio
  {
      "OTIO_SCHEMA": "Clip.2"
  }
  $ cat > a.edl <<'END'
  > 1 A1 V C 00:00:01:00 00:00:02:00 00:00:00:00 00:00:01:00
  > END
  $ otio convert --to edl --family 1 a.edl
  FCM: NON-DROP FRAME
  001  A1       V     C        00:00:01:00 00:00:02:00 00:00:00:00 00:00:01:00

A clip whose reference isn't at the key `DEFAULT_MEDIA` is refused, on the stream of messages alone:

  $ cat > d.otio <<'END'
  > {
  >   "OTIO_SCHEMA": "Clip.2", "active_media_reference_key": "proxy",
  >   "media_references": {"proxy": null}
  > }
  > END
  $ otio convert --family 1 d.otio 2> told
  [1]
  $ cat told
  otio: d.otio: Y1 Keys at .

A marker of the outermost stack is named before a clip in that stack:

  $ cat > root.otio <<'END'
  > {
  >   "OTIO_SCHEMA": "Timeline.1",
  >   "tracks": {
  >     "OTIO_SCHEMA": "Stack.1",
  >     "children": [{"OTIO_SCHEMA": "Clip.2", "active_media_reference_key": "a"}],
  >     "markers": [{"OTIO_SCHEMA": "Marker.2", "range": 1}]
  >   }
  > }
  > END
  $ otio convert --family 1 root.otio
  otio: root.otio: Y2 Member at .
  [1]

A clip with a member `media_reference` of its own, in a collection:

  $ cat > many.otio <<'END'
  > {
  >   "OTIO_SCHEMA": "SerializableCollection.1",
  >   "children": [
  >     {"OTIO_SCHEMA": "Clip.1"},
  >     {
  >       "OTIO_SCHEMA": "Timeline.1",
  >       "tracks": {
  >         "OTIO_SCHEMA": "Stack.1",
  >         "children": [
  >           {
  >             "OTIO_SCHEMA": "Track.1",
  >             "children": [
  >               {
  >                 "OTIO_SCHEMA": "Clip.2",
  >                 "media_references": {"DEFAULT_MEDIA": null},
  >                 "media_reference": 1
  >               }
  >             ]
  >           }
  >         ]
  >       }
  >     }
  >   ]
  > }
  > END
  $ otio convert --family 1 many.otio
  otio: many.otio: Y2 Member at 1/0/0
  [1]

A clip of two references, one whose active key it doesn't have, and one without a reference:

  $ cat > two.otio <<'END'
  > {"OTIO_SCHEMA": "Clip.2", "media_references": {"DEFAULT_MEDIA": null, "proxy": null}}
  > END
  $ otio convert --family 1 two.otio
  otio: two.otio: Y1 Keys at .
  [1]
  $ cat > proxy.otio <<'END'
  > {
  >   "OTIO_SCHEMA": "Clip.2",
  >   "media_references": {"DEFAULT_MEDIA": null},
  >   "active_media_reference_key": "proxy"
  > }
  > END
  $ otio convert --family 1 proxy.otio
  otio: proxy.otio: Y1 Keys at .
  [1]
  $ cat > none.otio <<'END'
  > {"OTIO_SCHEMA": "Clip.2"}
  > END
  $ otio convert --family 1 none.otio
  otio: none.otio: Y1 Keys at .
  [1]

A clip with a member `media_reference` of its own:

  $ cat > name.otio <<'END'
  > {
  >   "OTIO_SCHEMA": "Clip.2",
  >   "media_references": {"DEFAULT_MEDIA": null},
  >   "media_reference": null
  > }
  > END
  $ otio convert --family 1 name.otio
  otio: name.otio: Y2 Member at .
  [1]

The keys of a clip are named before a member of its marker:

  $ cat > both.otio <<'END'
  > {
  >   "OTIO_SCHEMA": "Clip.2", "media_reference": null,
  >   "markers": [{"OTIO_SCHEMA": "Marker.2", "range": null}]
  > }
  > END
  $ otio convert --family 1 both.otio
  otio: both.otio: Y1 Keys at .
  [1]

A marker with a member `range` of its own, on a clip, a gap, a stack in a track, and a track:

  $ cat > mark.otio <<'END'
  > {
  >   "OTIO_SCHEMA": "Clip.2",
  >   "media_references": {"DEFAULT_MEDIA": null},
  >   "markers": [7, {"OTIO_SCHEMA": "Marker.2", "range": null}]
  > }
  > END
  $ otio convert --family 1 mark.otio
  otio: mark.otio: Y2 Member at .
  [1]
  $ cat > gap.otio <<'END'
  > {"OTIO_SCHEMA": "Gap.1", "markers": [{"OTIO_SCHEMA": "Marker.2", "range": null}]}
  > END
  $ otio convert --family 1 gap.otio
  otio: gap.otio: Y2 Member at .
  [1]
  $ cat > stack.otio <<'END'
  > {
  >   "OTIO_SCHEMA": "Timeline.1",
  >   "tracks": {
  >     "OTIO_SCHEMA": "Stack.1",
  >     "children": [
  >       {
  >         "OTIO_SCHEMA": "Track.1",
  >         "children": [
  >           {"OTIO_SCHEMA": "Gap.1"},
  >           {
  >             "OTIO_SCHEMA": "Stack.1",
  >             "markers": [{"OTIO_SCHEMA": "Marker.2", "range": null}],
  >             "children": [{"OTIO_SCHEMA": "Clip.2"}]
  >           }
  >         ]
  >       }
  >     ]
  >   }
  > }
  > END
  $ otio convert --family 1 stack.otio
  otio: stack.otio: Y2 Member at 0/1
  [1]
  $ cat > track.otio <<'END'
  > {
  >   "OTIO_SCHEMA": "Stack.1",
  >   "children": [
  >     {"OTIO_SCHEMA": "Clip.1"},
  >     {
  >       "OTIO_SCHEMA": "Track.1",
  >       "markers": [{"OTIO_SCHEMA": "Marker.2"}, {"OTIO_SCHEMA": "Marker.2", "range": null}]
  >     }
  >   ]
  > }
  > END
  $ otio convert --family 1 track.otio
  otio: track.otio: Y2 Member at 1
  [1]

The first clip without an older form is named, whatever its fault is:

  $ cat > second.otio <<'END'
  > {
  >   "OTIO_SCHEMA": "Timeline.1",
  >   "tracks": {
  >     "OTIO_SCHEMA": "Stack.1",
  >     "children": [
  >       {
  >         "OTIO_SCHEMA": "Track.1",
  >         "children": [
  >           {"OTIO_SCHEMA": "Clip.2", "media_references": {"DEFAULT_MEDIA": null}},
  >           {
  >             "OTIO_SCHEMA": "Stack.1",
  >             "children": [
  >               {"OTIO_SCHEMA": "Clip.2", "media_references": {"DEFAULT_MEDIA": null}},
  >               {"OTIO_SCHEMA": "Clip.2"}
  >             ]
  >           },
  >           {"OTIO_SCHEMA": "Clip.2"}
  >         ]
  >       }
  >     ]
  >   }
  > }
  > END
  $ otio convert --family 1 second.otio
  otio: second.otio: Y1 Keys at 0/1/1
  [1]
  $ cat > order.otio <<'END'
  > {
  >   "OTIO_SCHEMA": "Timeline.1",
  >   "tracks": {
  >     "OTIO_SCHEMA": "Stack.1",
  >     "children": [
  >       {
  >         "OTIO_SCHEMA": "Track.1",
  >         "children": [
  >           {
  >             "OTIO_SCHEMA": "Clip.2",
  >             "media_references": {"DEFAULT_MEDIA": null},
  >             "media_reference": 1
  >           },
  >           {"OTIO_SCHEMA": "Clip.2"}
  >         ]
  >       }
  >     ]
  >   }
  > }
  > END
  $ otio convert --family 1 order.otio
  otio: order.otio: Y2 Member at 0/0
  [1]
