$ tacd serve --help
prints serve-long.out
