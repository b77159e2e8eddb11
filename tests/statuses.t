Each status of the program, with its message. All messages go to standard error.

  $ . "$TESTDIR/setup.sh"
  $ echo '[true]' > good.json
  $ echo '[true' > broken.json

0, done: the output alone:

  $ otio convert --to json good.json 2> messages
  [
      true
  ]
  $ cat messages

1, refused: a message alone:

  $ otio convert --to json broken.json 2> messages
  [1]
  $ cat messages
  otio: broken.json: J1 Syntax at 6

2, usage: the usage text alone. Without arguments, of an unknown command, an unknown option, an
option of another command, an option without its value, a value out of range, and without a file:

  $ otio 2> messages
  [2]
  $ head -n 1 messages
  otio: usage
  $ tail -n +2 messages | cut -c 1-7 | sort -u
    otio 
  $ otio rename good.json 2> other
  [2]
  $ cmp messages other
  $ otio convert --sideways good.json 2> other
  [2]
  $ cmp messages other
  $ otio convert --count 3 good.json 2> other
  [2]
  $ cmp messages other
  $ otio convert good.json --to 2> other
  [2]
  $ cmp messages other
  $ otio frames --count 1000001 good.json 2> other
  [2]
  $ cmp messages other
  $ otio convert --to json 2> other
  [2]
  $ cmp messages other
  $ otio --help 2> other
  [2]
  $ cmp messages other
  $ otio convert -h 2> other
  [2]
  $ cmp messages other

An argument that isn't UTF-8 is wrong usage too, whatever the others are:

  $ otio convert --to json good.json "$(printf '\377')" 2> other
  [2]
  $ cmp messages other
  $ otio convert --to json -o "$(printf '\377')" good.json 2> other
  [2]
  $ cmp messages other

3, input: no such file, an empty name, a folder, and standard input that is a folder:

  $ otio convert --to json absent.json 2> messages
  [3]
  $ cat messages
  otio: absent.json: absent
  $ otio convert --to json '' 2> messages
  [3]
  $ cat messages
  otio: : absent
  $ otio convert --to json . 2> messages
  [3]
  $ cat messages
  otio: .: read failed
  $ otio convert --to json - < . 2> messages
  [3]
  $ cat messages
  otio: -: read failed

A file in place of a folder, a link to itself, and a name that is too long for the system, are
failures to open:

  $ otio convert --to json good.json/below 2> messages
  [3]
  $ cat messages
  otio: good.json/below: read failed
  $ ln -s circle circle
  $ otio convert --to json circle 2> messages
  [3]
  $ cat messages
  otio: circle: read failed
  $ otio convert --to json "$(printf '%0300d' 0)" 2> messages
  [3]
  $ cut -c 1-7 messages; sed 's/.*: //' messages
  otio: 0
  read failed

A file that is read with another one:

  $ echo '{"OTIO_SCHEMA":"Timeline.1","tracks":{"OTIO_SCHEMA":"Stack.1"}}' > cut.otio
  $ otio edit --script absent.txt cut.otio 2> messages
  [3]
  $ cat messages
  otio: absent.txt: absent
  $ otio edit --script . cut.otio 2> messages
  [3]
  $ cat messages
  otio: .: read failed

4, output: a full device, as standard output and by its name:

  $ otio convert --to json good.json 2> messages > /dev/full
  [4]
  $ cat messages
  otio: output failed
  $ otio convert --to json -o /dev/full good.json 2> messages
  [4]
  $ cat messages
  otio: output failed

5, memory: a file that is done with enough of it, and the same file with 32 MB:

  $ python3 -c 'print("[" + "0," * 1999999 + "0]")' > long.json
  $ otio convert --to json -o long.out long.json 2> messages
  $ cat messages
  $ rm long.out
  $ (ulimit -v 32000; otio convert --to json -o long.out long.json) 2> messages
  [5]
  $ cat messages
  otio: no memory

No output was begun:

  $ test ! -e long.out

In that much memory a small file is done:

  $ (ulimit -v 32000; otio convert --to json good.json)
  [
      true
  ]

A refused file comes before a failed output, and wrong usage before both:

  $ otio convert --to json -o /dev/full broken.json
  otio: broken.json: J1 Syntax at 6
  [1]
  $ otio convert --to json -o /dev/full absent.json
  otio: absent.json: absent
  [3]
  $ otio convert --to json -o /dev/full --sideways broken.json 2> other
  [2]
