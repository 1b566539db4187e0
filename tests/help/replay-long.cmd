$ tacd replay --help
prints replay-long.out
