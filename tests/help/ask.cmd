$ tacd ask -h
prints ask.out
