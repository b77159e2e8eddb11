Files that the user may not read or write. Root may do both, so root skips this table.

  $ [ "$(id -u)" != 0 ] || exit 80
  $ . "$TESTDIR/setup.sh"
  $ echo '[true]' > good.json

A file that may not be read, alone and as the second one:

  $ cp good.json closed.json
  $ chmod 000 closed.json
  $ otio convert --to json closed.json
  otio: closed.json: read failed
  [3]
  $ echo '{"OTIO_SCHEMA":"Timeline.1","tracks":{"OTIO_SCHEMA":"Stack.1"}}' > cut.otio
  $ otio edit --script closed.json cut.otio
  otio: closed.json: read failed
  [3]

A folder that may not be entered, which holds a file of the name or doesn't:

  $ mkdir closed
  $ cp good.json closed
  $ chmod 000 closed
  $ otio convert --to json closed/good.json
  otio: closed/good.json: read failed
  [3]
  $ otio convert --to json closed/absent.json
  otio: closed/absent.json: read failed
  [3]
  $ otio convert --to json -o closed/new.json good.json
  otio: output failed
  [4]
  $ chmod 700 closed; ls closed
  good.json

OUT may not be written, and stays:

  $ echo before > kept.json
  $ chmod 444 kept.json
  $ otio convert --to json -o kept.json good.json
  otio: output failed
  [4]
  $ cat kept.json
  before

No file may be made in its folder. One that is there may be written:

  $ mkdir fixed
  $ echo before > fixed/kept.json
  $ chmod 555 fixed
  $ otio convert --to json -o fixed/new.json good.json
  otio: output failed
  [4]
  $ ls fixed
  kept.json
  $ otio convert --to json -o fixed/kept.json good.json
  $ cat fixed/kept.json
  [
      true
  ]
  $ chmod 755 fixed
