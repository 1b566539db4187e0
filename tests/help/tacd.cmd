$ tacd --version
tacd 0.22.0

$ tacd -h
prints tacd.out

$ tacd --help > /dev/full
status 4
