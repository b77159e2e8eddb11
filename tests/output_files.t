Outputs that can't be written, and what stands in OUT then.

  $ . "$TESTDIR/setup.sh"
  $ echo '[true]' > good.json
  $ echo '[true' > broken.json
  $ echo before > kept.json
  $ seq 0 9999 | tr '\n' ',' | sed 's/^/[/; s/,$/]/' > long.json

OUT is made, or emptied first:

  $ otio convert --to json -o new.json good.json
  $ cat new.json
  [
      true
  ]
  $ cp long.json old.json
  $ otio convert --to json -o old.json good.json
  $ cmp new.json old.json

A file that is named `-` is a file too:

  $ otio convert --to json -o - good.json
  $ cmp new.json ./-

OUT is a full device:

  $ otio convert --to json -o /dev/full good.json
  otio: output failed
  [4]
  $ otio convert --to json -o /dev/full long.json
  otio: output failed
  [4]

OUT is a folder:

  $ mkdir folder
  $ otio convert --to json -o folder good.json
  otio: output failed
  [4]
  $ ls folder

OUT is in a folder that isn't there, or in one that is a file, or has no name:

  $ otio convert --to json -o absent/new.json good.json
  otio: output failed
  [4]
  $ test ! -e absent
  $ otio convert --to json -o good.json/new.json good.json
  otio: output failed
  [4]
  $ otio convert --to json -o '' good.json
  otio: output failed
  [4]

The system lets nobody write OUT, since it is a program that runs. OUT stays:

  $ cp "$(command -v sleep)" waiting
  $ cp waiting copy
  $ ./waiting 300 &
  $ while kill -0 $! && ! cmp -s waiting "/proc/$!/exe"; do :; done
  $ otio convert --to json -o waiting good.json
  otio: output failed
  [4]
  $ kill $!; cmp waiting copy

What is refused or isn't read leaves OUT as it was:

  $ otio convert --to json -o kept.json broken.json
  otio: broken.json: J1 Syntax at 6
  [1]
  $ otio convert --to json -o kept.json absent.json
  otio: absent.json: absent
  [3]
  $ otio convert --to json -o kept.json folder
  otio: folder: read failed
  [3]
  $ otio convert --to json -o kept.json --sideways good.json 2> usage
  [2]
  $ python3 -c 'print("[" + "0," * 1999999 + "0]")' > many.json
  $ (ulimit -v 32000; otio convert --to json -o kept.json many.json)
  otio: no memory
  [5]
  $ cat kept.json
  before

And makes none:

  $ otio convert --to json -o none.json broken.json
  otio: broken.json: J1 Syntax at 6
  [1]
  $ otio convert --to json -o none.json absent.json
  otio: absent.json: absent
  [3]
  $ test ! -e none.json

OUT is the input: all of it is read first. A refused file stays:

  $ cp long.json same.json
  $ otio convert --to json -o same.json same.json
  $ otio convert --to json -o other.json long.json
  $ cmp same.json other.json
  $ cp broken.json same.json
  $ otio convert --to json -o same.json same.json
  otio: same.json: J1 Syntax at 6
  [1]
  $ cmp broken.json same.json

OUT is the script, and the second of two inputs:

  $ echo '{"OTIO_SCHEMA":"Timeline.1","tracks":{"OTIO_SCHEMA":"Stack.1"}}' > cut.otio
  $ : > script.txt
  $ otio edit --script script.txt -o edited.otio cut.otio
  $ otio edit --script script.txt -o script.txt cut.otio
  $ cmp edited.otio script.txt
  $ cp cut.otio second.otio
  $ otio cat -o joined.otio cut.otio second.otio
  $ otio cat -o second.otio cut.otio second.otio
  $ cmp joined.otio second.otio

Files may have at most 8192 bytes here, 16 blocks of 512. OUT has what fits. The limit ends the
program by a signal, or where that is ignored, is a failed write:

  $ test "$(wc -c < other.json)" -gt 8192
  $ (trap '' XFSZ; ulimit -f 16; otio convert --to json -o ignored.json long.json)
  otio: output failed
  [4]
  $ head -c 8192 other.json | cmp - ignored.json
  $ { (ulimit -c 0; ulimit -f 16; otio convert --to json -o ended.json long.json); } 2> messages
  [153]
  $ grep otio: messages
  [1]
  $ head -c 8192 other.json | cmp - ended.json
