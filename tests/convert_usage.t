Command lines that are none of `convert`. Each gets the usage text alone.

  $ . "$TESTDIR/setup.sh"

A list, also under a name that begins like an option, and a media list:

  $ cat > a.edl <<'END'
  > TITLE: ONE
  > FCM: NON-DROP FRAME
  > 
  > 7 TAPE1 V C 01:00:00:00 01:00:02:00 00:00:10:00 00:00:12:00
  > END
  $ cp a.edl ./-b.edl
  $ printf 'TAPE1\t24\t0\t200000\ta.mov\n' > m.txt

No word at all:

  $ otio 2> usage
  [2]
  $ head -c 28 usage
  otio: usage
    otio convert [ (no-eol)
  $ wc -l < usage
  10

A command that is none, and one with a capital:

  $ otio paint 2> message
  [2]
  $ cmp message usage
  $ otio Convert --to edl a.edl 2> message
  [2]
  $ cmp message usage

No file:

  $ otio convert 2> message
  [2]
  $ cmp message usage
  $ otio convert --to edl 2> message
  [2]
  $ cmp message usage
  $ otio convert --to --to edl 2> message
  [2]
  $ cmp message usage

Two files, and standard input in two places:

  $ otio convert --to edl a.edl a.edl 2> message
  [2]
  $ cmp message usage
  $ otio convert --to edl --media - - < a.edl 2> message
  [2]
  $ cmp message usage
  $ otio convert --from edl --media - - < a.edl 2> message
  [2]
  $ cmp message usage

Pairs of formats that aren't converted:

  $ otio convert --to json a.edl 2> message
  [2]
  $ cmp message usage
  $ otio convert --from edl --to json a.edl 2> message
  [2]
  $ cmp message usage

A media list with a list that is written as a list, as the name of the output may also ask for:

  $ otio convert --to edl --media m.txt a.edl 2> message
  [2]
  $ cmp message usage
  $ otio convert --media m.txt -o l.edl a.edl 2> message
  [2]
  $ cmp message usage

A flag that is given twice:

  $ otio convert --to edl --wide --wide a.edl 2> message
  [2]
  $ cmp message usage
  $ otio convert --to edl --drop --drop a.edl 2> message
  [2]
  $ cmp message usage

A rate that is none:

  $ otio convert --to edl --rate 29.5 a.edl 2> message
  [2]
  $ cmp message usage

Words that begin like an option, in the place of a file and of an output:

  $ otio convert --to edl -b.edl 2> message
  [2]
  $ cmp message usage
  $ otio convert --to json -x 2> message
  [2]
  $ cmp message usage
  $ otio convert --to edl -o -b a.edl 2> message
  [2]
  $ cmp message usage

No output was written:

  $ ls
  -b.edl
  a.edl
  m.txt
  message
  usage
