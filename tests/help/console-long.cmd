$ tacd console --help
prints console-long.out
