$ tacd diff --help
prints diff-long.out
