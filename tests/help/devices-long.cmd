$ tacd devices --help
prints devices-long.out
