$ tacd test --help
prints test-long.out
