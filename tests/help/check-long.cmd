$ tacd check --help
prints check-long.out
