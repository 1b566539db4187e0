$ tacd why --help
prints why-long.out
