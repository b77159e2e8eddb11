The result is the same from a file and from standard input, in whatever pieces its bytes come.

  $ . "$TESTDIR/setup.sh"
  $ cat > cut.edl <<'END'
  > TITLE: CUT
  > FCM: NON-DROP FRAME
  > 
  > 1 A1 V C 00:00:01:00 00:00:02:00 01:00:00:00 01:00:01:00
  > M2 A1 024.0 00:00:01:00
  > * FROM CLIP NAME: HARBOUR
  > 2 A1 V C 00:00:05:00 00:00:05:00 01:00:01:00 01:00:01:00
  > 2 B2 V D 012 00:00:05:00 00:00:06:00 01:00:01:00 01:00:02:00
  > END
  $ printf 'A1\t24\t0\t240\ta1.mov\nB2\t24\t0\t240\tb2.mov\n' > media.txt
  $ printf 'insert 0 0 gap 12\nundo\nredo\n' > script.txt
  $ printf '{"a":"\\ud83d\\ude00 \303\251\360\237\230\200","b":[-1.5e+3,true,null]}' > text.json
  $ in_pieces() {
  >     python3 "$TESTDIR/in_pieces.py" "$@"
  > }

A list, by its name, as standard input that is a file, and by a pipe at once and in small pieces:

  $ otio convert --to edl cut.edl > whole
  $ cat whole
  TITLE: CUT
  FCM: NON-DROP FRAME
  001  A1       V     C        00:00:01:00 00:00:02:00 01:00:00:00 01:00:01:00
  * FROM CLIP NAME: HARBOUR
  002  A1       V     C        00:00:05:00 00:00:05:00 01:00:01:00 01:00:01:00
  002  B2       V     D    012 00:00:05:00 00:00:06:00 01:00:01:00 01:00:02:00
  $ otio convert --from edl --to edl - < cut.edl | cmp whole -
  $ cat cut.edl | otio convert --from edl --to edl - | cmp whole -
  $ in_pieces 1 cut.edl | otio convert --from edl --to edl - | cmp whole -
  $ in_pieces 2 cut.edl | otio convert --from edl --to edl - | cmp whole -
  $ in_pieces 7 cut.edl | otio convert --from edl --to edl - | cmp whole -

By the name of a pipe, and of what stands at a descriptor:

  $ mkfifo pipe.edl
  $ in_pieces 7 cut.edl > pipe.edl &
  $ otio convert --to edl pipe.edl | cmp whole -
  $ otio convert --from edl --to edl /dev/stdin < cut.edl | cmp whole -
  $ otio convert --from edl --to edl /dev/fd/3 3< cut.edl | cmp whole -

To a pipe, to a file that standard output is, and to OUT:

  $ otio convert --to edl cut.edl | cmp whole -
  $ otio convert --to edl -o out.edl cut.edl
  $ cmp whole out.edl
  $ mkfifo pipe.out
  $ cmp whole pipe.out &
  $ otio convert --to edl -o pipe.out cut.edl
  $ wait $!

JSON, with characters of one to four bytes and a pair of escapes:

  $ otio convert --to json text.json > whole
  $ cat whole
  {
      "a": "\xf0\x9f\x98\x80 \xc3\xa9\xf0\x9f\x98\x80", (esc)
      "b": [
          -1.5e+3,
          true,
          null
      ]
  }
  $ otio convert --to json - < text.json | cmp whole -
  $ cat text.json | otio convert --to json - | cmp whole -
  $ in_pieces 1 text.json | otio convert --to json - | cmp whole -
  $ in_pieces 2 text.json | otio convert --to json - | cmp whole -
  $ in_pieces 7 text.json | otio convert --to json - | cmp whole -

A timeline, of which frames are shown:

  $ otio convert --to otio --media media.txt cut.edl > cut.otio
  $ otio frames --start 86400 --count 1 cut.otio
  86400 0 url:"a1.mov"@24
  $ otio frames cut.otio > whole
  $ wc -l < whole
  48
  $ otio frames - < cut.otio | cmp whole -
  $ in_pieces 1 cut.otio | otio frames - | cmp whole -
  $ in_pieces 7 cut.otio | otio frames - | cmp whole -

Standard input is the media list, or the script:

  $ otio convert --to otio --media - cut.edl < media.txt | cmp cut.otio -
  $ in_pieces 1 media.txt | otio convert --to otio --media - cut.edl | cmp cut.otio -
  $ otio edit --script script.txt --media media.txt cut.edl > whole
  $ otio frames --start 86411 --count 2 whole
  86411 0 -
  86412 0 url:"a1.mov"@24
  $ otio edit --script - --media media.txt cut.edl < script.txt | cmp whole -
  $ in_pieces 1 script.txt | otio edit --script - --media media.txt cut.edl | cmp whole -

A log:

  $ printf 'Heading\nFIELD_DELIM\tTABS\nFPS\t24\n\nColumn\nTape\tStart\tEnd\n\nData\n' > reels.ale
  $ printf 'A1\t00:00:00:00\t00:00:10:00\n' >> reels.ale
  $ otio media reels.ale > whole
  $ cat whole
  A1\t24.0\t0\t240\ttape:A1 (esc)
  $ otio media - < reels.ale | cmp whole -
  $ in_pieces 1 reels.ale | otio media - | cmp whole -

An input that is refused is so from each of them, at the same place:

  $ printf '["a",\n\377]' > broken.json
  $ otio convert --to json broken.json
  otio: broken.json: J1 Syntax at 6
  [1]
  $ otio convert --to json - < broken.json
  otio: -: J1 Syntax at 6
  [1]
  $ in_pieces 1 broken.json | otio convert --to json -
  otio: -: J1 Syntax at 6
  [1]

Nothing at all:

  $ otio convert --to json /dev/null
  otio: /dev/null: J1 Syntax at 0
  [1]
  $ otio convert --to json - < /dev/null
  otio: -: J1 Syntax at 0
  [1]
  $ : | otio convert --from edl --to edl -
  FCM: NON-DROP FRAME

A fault ends the reading. Here more could come, since the pipe stays open:

  $ mkfifo pipe.json
  $ exec 3<> pipe.json
  $ echo '[1,]' >&3
  $ timeout 30 "$OTIO" convert --to json pipe.json
  otio: pipe.json: J1 Syntax at 3
  [1]
  $ exec 3>&-

A text that is longer than a pipe has room for:

  $ seq -s , 50000 | sed 's/.*/[&]/' > long.json
  $ otio convert --to json long.json > whole
  $ cat long.json | otio convert --to json - | cat | cmp whole -
  $ in_pieces 5000 long.json | otio convert --to json - | cmp whole -

A stream that doesn't block, first without bytes and then without room. What was written by then is
a prefix of the output:

  $ cat > unblocked.py <<'END'
  > import os, sys
  > os.set_blocking(int(sys.argv[1]), False)
  > os.execv(sys.argv[2], sys.argv[2:])
  > END
  $ exec 3<> pipe.json
  $ python3 unblocked.py 0 "$OTIO" convert --to json - < pipe.json
  otio: -: read failed
  [3]
  $ python3 unblocked.py 1 "$OTIO" convert --to json long.json > pipe.json
  otio: output failed
  [4]
  $ exec 4< pipe.json 3>&-
  $ cat <&4 > part; exec 4<&-
  $ test -s part && head -c "$(wc -c < part)" whole | cmp - part
