# Prints a live script with one round: so many `threads` zero blocks of 32 KiB, until the journal has so many `entries`.
# The memory has 262,144 words, of which a scan loads 245,760. The third register of a task counts the blocks: the address
# of one that isn't had is 0, and is neither stored to nor loaded from.
BEGIN {
  print "memory 262144\nbootmem 1048576\nbootmem 897024"
  for (t = 1; t <= 4; t++) print "task t" t
  for (t = 1; t <= threads; t++) {
    task = "t" t
    print "thread " task
    for (i = 0; i < 819; i++) {
      print "set " task ".r1 0"
      print "kzalloc 32768 " task ".r1"
      print "store " task ".r1 " task ".r3+1"
      print "load " task ".r3 " task ".r1"
      print "kfree " task ".r1"
    }
    print "end"
  }
  print "round 100 0 " entries
  for (t = 1; t <= threads; t++) print "print t" t ".r3"
}
