# What is wrong with a key comes before its file.
$ tacd serve --port 1 --key 0123456789abcdef0123456789abcdef0123456789abcdef0123456789abcdef0123456789abcdef0123456789abcdef0123456789abcdef0123456789abcdef nowhere
! tacd: nowhere: No such file or directory (os error 2)
status 4

$ tacd serve --port 1 --key x0123456789abcdef0123456789abcdef0123456789abcdef0123456789abcdef0123456789abcdef0123456789abcdef0123456789abcdef0123456789abcdef nowhere
! error: invalid value for '--key <K>': it is not 1 to 128 printable ASCII characters
!
! For more information, try '--help'.
status 2

$ tacd serve --port 1 --key '' nowhere
! error: invalid value for '--key <K>': it is not 1 to 128 printable ASCII characters
!
! For more information, try '--help'.
status 2

$ tacd serve --port 1 --key böb nowhere
! error: invalid value for '--key <K>': it is not 1 to 128 printable ASCII characters
!
! For more information, try '--help'.
status 2
