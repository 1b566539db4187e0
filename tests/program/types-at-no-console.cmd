file policy
group ops

$ tacd console nowhere policy
! tacd: nowhere: no server listens at this socket
status 4

$ tacd console policy policy
! tacd: policy: no server listens at this socket
status 4

$ tacd console
! error: the following required arguments were not provided:
!   <PATH>
!
! Usage: tacd console <PATH> [WORD]...
!
! For more information, try '--help'.
status 2
