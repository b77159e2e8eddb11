Status 5: the program may have 20 megabytes of addresses, and a file needs more.

A program that was built with AddressSanitizer needs terabytes of them. This table skips it.

  $ . "$TESTDIR/setup.sh"
  $ if grep -q __asan_init "$OTIO"; then exit 80; fi
  $ little() {
  >     (ulimit -v 20000; otio "$@")
  > }

A small file has enough:

  $ echo '[true]' > small.json
  $ little convert --to json small.json
  [
      true
  ]

A large one is done where nothing is forbidden, and nothing is written where it isn't done:

  $ seq -s , 2000000 | sed 's/.*/[&]/' > large.json
  $ otio convert --to json -o large.out large.json
  $ rm large.out
  $ little convert --to json -o large.out large.json 2> message
  [5]
  $ cat message
  otio: no memory
  $ test ! -e large.out
  $ little convert --to json large.json 2> message > out
  [5]
  $ cat out message
  otio: no memory

What stood in the output still does:

  $ echo before > large.out
  $ little convert --to json -o large.out large.json
  otio: no memory
  [5]
  $ cat large.out
  before

The same of an object, and of a file that is read with another one:

  $ printf '%s' '{"OTIO_SCHEMA":"Gap.1","metadata":' > large.otio
  $ sed 's/.*/{"a":&}}/' large.json >> large.otio
  $ otio convert large.otio > large.out
  $ little convert large.otio > out
  otio: no memory
  [5]
  $ echo '{"OTIO_SCHEMA":"Timeline.1","tracks":{"OTIO_SCHEMA":"Stack.1"}}' > cut.otio
  $ otio cat cut.otio large.otio
  otio: large.otio: G3 NotTimeline
  [1]
  $ little cat cut.otio large.otio > out
  otio: no memory
  [5]
  $ seq 3000000 | sed 's/^/# /' > large.script
  $ otio edit --script large.script -o large.out cut.otio
  $ little edit --script large.script cut.otio > out
  otio: no memory
  [5]
  $ cat out
