$ tacd given --help
prints given-long.out
