# Prints the script of a benchmark, by its name.
function draw(n) { state = (state * 1103515245 + 12345) % 2147483648; return int(state / 32768) % n }
function address(offset) { return sprintf("0xffff8880%08x", offset) }
BEGIN {
  state = 1
  if (name == "chain") {
    # 400,000 small blocks, each named by the one before, scanned eight times, then lost and listed
    print "memory 4194304\nsection data 1\ntask t\nset t.r0 data"
    for (i = 0; i < 400000; i++) print "kmalloc 16 t.r1\nstore t.r0 t.r1\nset t.r0 t.r1"
    print "tick 1000"
    for (i = 0; i < 6; i++) print "write scan"
    print "store data 0\nwrite scan\nwrite scan\nread"
  } else if (name == "tree") {
    # 30,000 nodes, each named by an earlier one in random order, scanned 25 times
    print "memory 1048576\nsection data 1"
    for (i = 0; i < 30000; i++) { print "kmalloc 64"; at[i] = 8192 + 64 * i }
    for (i = 29999; i > 0; i--) { j = draw(32768) * 32768 + draw(32768); j = j % (i + 1); s = at[i]; at[i] = at[j]; at[j] = s }
    print "store data " address(at[0])
    for (i = 1; i < 30000; i++) print "store " address(at[int((i - 1) / 2)] + 8 * (i % 2)) " " address(at[i])
    print "tick 1000"
    for (i = 0; i < 25; i++) print "write scan"
    print "read"
  } else if (name == "lines") {
    # 60 MB of short lines
    print "memory 4096\nsection data 8\ntask t"
    for (i = 0; i < 1300000; i++) print "store data+8 7\nset t.r0 data\nload t.r1 data+8"
  } else if (name == "areas") {
    # 200,000 areas, taken and given back
    print "memory 1048576\ntask t"
    for (i = 0; i < 400; i++) print "vmalloc 4096 t.r0\nstore t.stack+" 8 * i " t.r0"
    for (i = 0; i < 199600; i++) print "load t.r1 t.stack+" 8 * draw(400) "\nvfree t.r1\nvmalloc " 1 + draw(9000) " t.r0"
  } else if (name == "mixed") {
    # 400,000 actions while scans run
    print "memory 1048576\nsection data 4096\ntask t"
    for (i = 0; i < 400000; i++) {
      k = draw(8); at1 = "data+" 8 * draw(4096)
      if (k < 3) print "kmalloc " 1 + draw(512) " t.r0\nstore " at1 " t.r0"
      else if (k == 3) print "store " at1 " 0"
      else if (k == 4) print "load t.r1 " at1 "\nkfree t.r1"
      else if (k == 5) print "load t.r1 " at1 "\nstore t.r1 t.r0"
      else if (k == 6) print "tick " draw(500)
      else if (draw(4) == 0) print "begin"
      else print "step 64"
    }
    print "finish\ntick 1000\nwrite scan\nwrite scan\nread"
  }
}
