folder folder

$ tacd check folder
! tacd: folder: it is a folder
status 4

$ tacd check /proc/self/mem
! tacd: /proc/self/mem: it could not be read
status 4

$ tacd check nowhere
! tacd: nowhere: No such file or directory (os error 2)
status 4

file policy

$ tacd check policy > /dev/full
! tacd: the output could not be written
status 4

file policy
x␃

$ tacd check policy > /dev/full
! tacd: the output could not be written
status 4
