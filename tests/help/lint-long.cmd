$ tacd lint --help
prints lint-long.out
