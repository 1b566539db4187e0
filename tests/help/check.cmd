$ tacd check -h
prints check.out
