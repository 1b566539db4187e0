$ tacd import -h
prints import.out
