$ tacd ask --help
prints ask-long.out
