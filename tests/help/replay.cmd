$ tacd replay -h
prints replay.out
