$ tacd serve -h
prints serve.out
