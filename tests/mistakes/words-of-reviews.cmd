$ tacd diff
! error: the following required arguments were not provided:
!   <OLD>
!   <NEW>
!
! Usage: tacd diff <OLD> <NEW>
!
! For more information, try '--help'.
status 2

$ tacd test policy
! error: the following required arguments were not provided:
!   <CASES>
!
! Usage: tacd test <FILE> <CASES>
!
! For more information, try '--help'.
status 2

$ tacd given policy bob
! error: the following required arguments were not provided:
!   <SERVICE>
!
! Usage: tacd given <FILE> <USER> <SERVICE>
!
! For more information, try '--help'.
status 2

$ tacd given policy bob ppp ip
! error: unexpected argument 'ip' found
!
! Usage: tacd given [OPTIONS] <FILE> <USER> <SERVICE>
!
! For more information, try '--help'.
status 2
