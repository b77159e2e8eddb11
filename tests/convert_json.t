Texts of JSON are read and written again, all in the same layout.

  $ . "$TESTDIR/setup.sh"

A list:

  $ printf '[1,2]' > list.json
  $ otio convert --to json list.json
  [
      1,
      2
  ]

A later member of a name replaces the value of the first one:

  $ printf '{"a":1,"b":2,"a":3}' > twice.json
  $ otio convert twice.json --to json
  {
      "a": 3,
      "b": 2
  }

Standard input is read under the name `-`:

  $ printf 'true' | otio convert --to json -
  true

An object keeps the order of its members, and numbers their spelling. No schema is read:

  $ printf '%s' '{"OTIO_SCHEMA":"Gap.1","name":"\u00e9","metadata":{"a":[1.50,null]}}' > gap.otio
  $ otio convert --to json gap.otio
  {
      "OTIO_SCHEMA": "Gap.1",
      "name": "é",
      "metadata": {
          "a": [
              1.50,
              null
          ]
      }
  }

A media list has no effect on JSON, and is not opened:

  $ printf '1' > one.json
  $ otio convert --to json --media gone.txt one.json
  1

An escape that names half a character:

  $ printf '%s' '["\ud800"]' > half.json
  $ otio convert --to json half.json
  otio: half.json: J1 Syntax at 8
  [1]

A comma before the end of a list:

  $ printf '[1,]' > comma.json
  $ otio convert --to json comma.json
  otio: comma.json: J1 Syntax at 3
  [1]

A number that begins with nought:

  $ printf '01' > nought.json
  $ otio convert --to json nought.json
  otio: nought.json: J1 Syntax at 1
  [1]

A text that ends within an escape:

  $ printf '%s' '"\u12' > early.json
  $ otio convert --to json early.json
  otio: early.json: J1 Syntax at 5
  [1]

A word that is none of JSON:

  $ printf 'nul ' > nul
  $ otio convert --to json nul
  otio: nul: J1 Syntax at 3
  [1]

128 lists within each other:

  $ yes '[' | head -n 128 | tr -d '\n' > deep.json
  $ otio convert --to json deep.json
  otio: deep.json: J3 Depth at 127
  [1]

A byte that is no UTF-8, at the start of a character and within one:

  $ printf '["\377"]' > utf8.json
  $ otio convert --to json utf8.json
  otio: utf8.json: J2 Utf8 at 2
  [1]
  $ printf '["\303\377"]' > utf8.json
  $ otio convert --to json utf8.json
  otio: utf8.json: J2 Utf8 at 3
  [1]

A file that is not there:

  $ otio convert --to json gone.json
  otio: gone.json: absent
  [3]
