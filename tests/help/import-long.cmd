$ tacd import --help
prints import-long.out
