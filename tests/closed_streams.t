Standard streams that are closed, full, or that nobody reads.

  $ . "$TESTDIR/setup.sh"
  $ echo '[true]' > good.json
  $ echo '[true' > broken.json

Standard input is closed. A file is read all the same:

  $ otio convert --to json - <&-
  otio: -: read failed
  [3]
  $ otio convert --to json good.json <&-
  [
      true
  ]

It is closed where it is the second of the files:

  $ echo '{"OTIO_SCHEMA":"Timeline.1","tracks":{"OTIO_SCHEMA":"Stack.1"}}' > cut.otio
  $ otio cat cut.otio - <&-
  otio: -: read failed
  [3]
  $ otio edit --script - cut.otio <&-
  otio: -: read failed
  [3]

Standard output is closed. A file is written all the same:

  $ otio convert --to json good.json >&-
  otio: output failed
  [4]
  $ otio convert --to json broken.json >&-
  otio: broken.json: J1 Syntax at 6
  [1]
  $ otio convert --to json -o out.json good.json >&-
  $ cat out.json
  [
      true
  ]

Standard error is closed. The status is the same, and no message goes elsewhere:

  $ otio convert --to json good.json 2>&-
  [
      true
  ]
  $ otio convert --to json broken.json 2>&-
  [1]
  $ otio 2>&-
  [2]
  $ otio convert --to json absent.json 2>&-
  [3]
  $ otio convert --to json good.json > /dev/full 2>&-
  [4]
  $ otio convert --to json -o out.json broken.json 2>&-
  [1]
  $ cat out.json
  [
      true
  ]

All three are closed:

  $ otio convert --to json -o all.json good.json <&- >&- 2>&-
  $ cmp out.json all.json
  $ otio convert --to json good.json <&- >&- 2>&-
  [4]
  $ otio convert --to json broken.json <&- >&- 2>&-
  [1]
  $ otio convert --to json - <&- >&- 2>&-
  [3]
  $ otio <&- >&- 2>&-
  [2]

No file that the program opens gets the number of a closed standard stream, so no message can land
in one. While the program waits for its input, a pipe, `held` says at which of 0, 1 and 2 it has it.
It waits until the pipe is open there or at a higher number:

  $ mkfifo pipe
  $ held() {
  >     tries=0
  >     until ls -l "/proc/$!/fd" | grep -q '/pipe$' || [ $((tries += 1)) -gt 2000 ]; do
  >         sleep 0.01
  >     done
  >     for number in 0 1 2; do
  >         case $(readlink "/proc/$!/fd/$number") in
  >         */pipe) echo "the pipe is open at $number" ;;
  >         esac
  >     done
  > }
  $ "$OTIO" convert --to json -o one.json pipe <&- &
  > exec 3> pipe; held; echo 1 >&3; exec 3>&-; wait $! && cat one.json
  1
  $ "$OTIO" convert --to json -o two.json pipe >&- &
  > exec 3> pipe; held; echo 2 >&3; exec 3>&-; wait $! && cat two.json
  2
  $ "$OTIO" convert --to json -o three.json pipe 2>&- &
  > exec 3> pipe; held; echo 3 >&3; exec 3>&-; wait $! && cat three.json
  3
  $ "$OTIO" convert --to json -o four.json pipe <&- >&- 2>&- &
  > exec 3> pipe; held; echo 4 >&3; exec 3>&-; wait $! && cat four.json
  4

`held` does see a pipe that is there:

  $ cat pipe <&- &
  $ exec 3> pipe; held; exec 3>&-; wait $!
  the pipe is open at 0

The same while it waits for room in its output:

  $ cat > dark.otio <<'END'
  > {"OTIO_SCHEMA":"Timeline.1","tracks":{"OTIO_SCHEMA":"Stack.1","children":[
  >     {"OTIO_SCHEMA":"Track.1","children":[]}]}}
  > END
  $ "$OTIO" frames --count 20000 -o pipe - < dark.otio >&- &
  > exec 3< pipe; held; wc -l <&3; exec 3<&-; wait $!
  20000
  $ "$OTIO" frames --count 20000 -o pipe - < dark.otio 2>&- &
  > exec 3< pipe; held; wc -l <&3; exec 3<&-; wait $!
  20000
  $ "$OTIO" frames --count 20000 -o pipe dark.otio <&- >&- 2>&- &
  > exec 3< pipe; held; wc -l <&3; exec 3<&-; wait $!
  20000

Standard error is a full device, and so is standard output:

  $ otio convert --to json broken.json 2> /dev/full
  [1]
  $ otio 2> /dev/full
  [2]
  $ otio convert --to json absent.json 2> /dev/full
  [3]
  $ otio convert --to json good.json > /dev/full 2> /dev/full
  [4]

A pipe that nobody reads any more. The program isn't ended by a signal:

  $ true < pipe &
  $ exec 3> pipe; wait $!
  $ otio convert --to json good.json >&3
  otio: output failed
  [4]
  $ otio convert --to json broken.json 2>&3
  [1]
  $ exec 3>&-

One whose reader goes while the program writes:

  $ { otio frames --count 20000 dark.otio 2> messages; echo $? > status; } | head -n 1
  0 0 -
  $ cat messages status
  otio: output failed
  4
