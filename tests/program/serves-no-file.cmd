folder folder

$ tacd serve --port 1 --key k folder
! tacd: folder: it is a folder
status 4

$ tacd serve --port 1 --key k /proc/self/mem
! tacd: /proc/self/mem: it could not be read
status 4

$ tacd serve --port 1 --key k nowhere
! tacd: nowhere: No such file or directory (os error 2)
status 4

file policy
x␃

$ tacd serve --port 1 --key k policy > /dev/full
! tacd: the output could not be written
status 4
