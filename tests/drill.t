Drills: the numbers that they write, the same each time, and the words that ask for none.

  $ . "$TESTDIR/setup.sh"

Without edits, and with one:

  $ otio drill 0 0 > first
  $ cat first
  edits 0
  refused 0
  items 40
  events 40
  frames 1734
  shown 2527129
  back 2527129
  $ otio drill 0 0 > again
  $ cmp first again
  $ otio drill 0 1 > first
  $ cat first
  edits 1
  refused 0
  items 40
  events 40
  frames 1734
  shown 2527129
  back 2527129
  $ otio drill 0 1 > again
  $ cmp first again

With edits of which one is refused:

  $ otio drill 3 20 > first
  $ cat first
  edits 19
  refused 1
  items 49
  events 44
  frames 1881
  shown 2514514
  back 2770731
  $ otio drill 3 20 > again
  $ cmp first again

What is shown after all edits are undone depends on the seed alone:

  $ otio drill 7 0 > first
  $ cat first
  edits 0
  refused 0
  items 40
  events 40
  frames 2049
  shown 3235185
  back 3235185
  $ otio drill 7 0 > again
  $ cmp first again
  $ otio drill 7 2000 > first
  $ cat first
  edits 1990
  refused 10
  items 446
  events 286
  frames 3581
  shown 4043993
  back 3235185
  $ otio drill 7 2000 > again
  $ cmp first again

The greatest seed:

  $ otio drill 18446744073709551615 5 > first
  $ cat first
  edits 5
  refused 0
  items 44
  events 43
  frames 2026
  shown 3150983
  back 3232459
  $ otio drill 18446744073709551615 5 > again
  $ cmp first again

The output goes into the file that is named:

  $ otio drill 0 0 -o d.txt
  $ cat d.txt
  edits 0
  refused 0
  items 40
  events 40
  frames 1734
  shown 2527129
  back 2527129

Too few words, and too many:

  $ otio drill 2> usage
  [2]
  $ head -c 28 usage
  otio: usage
    otio convert [ (no-eol)
  $ wc -l < usage
  10
  $ otio drill 1 2> message
  [2]
  $ cmp message usage
  $ otio drill 1 2 3 2> message
  [2]
  $ cmp message usage

Numbers with a leading zero, a sign or a point, and a word that is none:

  $ otio drill 00 1 2> message
  [2]
  $ cmp message usage
  $ otio drill 1 01 2> message
  [2]
  $ cmp message usage
  $ otio drill +1 2 2> message
  [2]
  $ cmp message usage
  $ otio drill 1 +2 2> message
  [2]
  $ cmp message usage
  $ otio drill -1 2 2> message
  [2]
  $ cmp message usage
  $ otio drill 1 -2 2> message
  [2]
  $ cmp message usage
  $ otio drill 1.0 2 2> message
  [2]
  $ cmp message usage
  $ otio drill x 2 2> message
  [2]
  $ cmp message usage

Numbers that are too large:

  $ otio drill 1 10001 2> message
  [2]
  $ cmp message usage
  $ otio drill 18446744073709551616 1 2> message
  [2]
  $ cmp message usage
  $ otio drill 1 18446744073709551617 2> message
  [2]
  $ cmp message usage

Options that other commands have, and an output named twice:

  $ otio drill --rate 24 1 2 2> message
  [2]
  $ cmp message usage
  $ otio drill --media m.txt 1 2 2> message
  [2]
  $ cmp message usage
  $ otio drill -o a -o b 1 2 2> message
  [2]
  $ cmp message usage
  $ ls
  again
  d.txt
  first
  message
  usage
