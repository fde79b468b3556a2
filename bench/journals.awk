# Writes the journal of so many whole scans of a section of 4096 words: -v scans=N.
BEGIN {
  print "kmjournal 1 65536"
  print "0 no_scan 0xffff888000000000 = done"
  print "0 section data 4096 = done"
  for (word = 0; word < 4096; word++)
    step[word] = sprintf("0 step = loaded 0xffff8880%08x 0x%016x", 4096 + 8 * word, word)
  for (scan = 1; scan <= scans; scan++) {
    print "0 file scan = done"
    for (word = 0; word < 4096; word++)
      print step[word]
    printf "0 step = ended %d 0\n", scan
  }
  printf "end %d\n", 2 + scans * 4098
}
