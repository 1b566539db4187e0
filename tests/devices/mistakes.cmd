# What is no command line, and files that aren't read.
$ tacd devices
! error: the following required arguments were not provided:
!   <FILE>
!
! Usage: tacd devices <FILE> [ADDRESS]...
!
! For more information, try '--help'.
status 2

$ tacd devices --all nowhere
! error: unexpected argument '--all' found
!
!   tip: to pass '--all' as a value, use '-- --all'
!
! Usage: tacd devices [OPTIONS] <FILE> [ADDRESS]...
!
! For more information, try '--help'.
status 2

# Words are looked at before the file is.
$ tacd devices nowhere 192.0.2.1 core-1
! error: invalid value 'core-1' for '[ADDRESS]...': invalid IP address syntax
!
! For more information, try '--help'.
status 2

$ tacd devices nowhere fe80::1%2
! error: invalid value 'fe80::1%2' for '[ADDRESS]...': invalid IP address syntax
!
! For more information, try '--help'.
status 2

$ tacd devices nowhere 192.0.2.0/24
! error: invalid value '192.0.2.0/24' for '[ADDRESS]...': invalid IP address syntax
!
! For more information, try '--help'.
status 2

$ tacd devices nowhere 192.0.2.1:49
! error: invalid value '192.0.2.1:49' for '[ADDRESS]...': invalid IP address syntax
!
! For more information, try '--help'.
status 2

$ tacd devices nowhere 192.0.2.010
! error: invalid value '192.0.2.010' for '[ADDRESS]...': invalid IP address syntax
!
! For more information, try '--help'.
status 2

$ tacd devices nowhere [::1]
! error: invalid value '[::1]' for '[ADDRESS]...': invalid IP address syntax
!
! For more information, try '--help'.
status 2

$ tacd devices nowhere ''
! error: invalid value '' for '[ADDRESS]...': invalid IP address syntax
!
! For more information, try '--help'.
status 2

$ tacd devices nowhere 192.0.2.1
! tacd: nowhere: No such file or directory (os error 2)
status 4

folder here

$ tacd devices here
! tacd: here: it is a folder
status 4

file devices
device a
at ::1
key k

$ tacd devices devices > /dev/full
! tacd: the output could not be written
status 4

$ tacd devices devices ::1 > /dev/full
! tacd: the output could not be written
status 4

# A file that is refused tells of no address.
file refused
device a
at ::1

$ tacd devices refused ::1
devices fault line 1 8 NoKey
! tacd: 'tacd devices --lint refused' says more
status 1
