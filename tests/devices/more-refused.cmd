# More refusals of docs/DEVICES.md, beside those of refused.cmd: the first line with a fault is told,
# the faults of a whole file come after those of all lines, and a repeated prefix may be written
# otherwise.
file devices
device a
key k␉k

$ tacd devices devices
devices fault line 2 1 BadLine
! tacd: 'tacd devices --lint devices' says more
status 1

file devices
device a/b

$ tacd devices devices
devices fault line 1 2 BadName
! tacd: 'tacd devices --lint devices' says more
status 1

file devices
at 1.2.3

$ tacd devices devices
devices fault line 1 3 NoDevice
! tacd: 'tacd devices --lint devices' says more
status 1

file devices
|key |

$ tacd devices devices
devices fault line 1 3 NoDevice
! tacd: 'tacd devices --lint devices' says more
status 1

file devices
device a
|connections |

$ tacd devices devices
devices fault line 2 5 BadValue
! tacd: 'tacd devices --lint devices' says more
status 1

file devices
device a
connections 1x

$ tacd devices devices
devices fault line 2 5 BadValue
! tacd: 'tacd devices --lint devices' says more
status 1

file devices
device a
at ::1
key k
device a

$ tacd devices devices
devices fault line 4 6 Repeated
! tacd: 'tacd devices --lint devices' says more
status 1

file devices
device a
key k
key l

$ tacd devices devices
devices fault line 3 6 Repeated
! tacd: 'tacd devices --lint devices' says more
status 1

file devices
device a
connections 1
connections 1

$ tacd devices devices
devices fault line 3 6 Repeated
! tacd: 'tacd devices --lint devices' says more
status 1

file devices
device a
at 1.2.3.4
at 1.2.3.4/32

$ tacd devices devices
devices fault line 3 6 Repeated
! tacd: 'tacd devices --lint devices' says more
status 1

file devices
device a
at 1.0.0.0/8
key k
device b
at 1.0.0.0/008

$ tacd devices devices
devices fault line 5 6 Repeated
! tacd: 'tacd devices --lint devices' says more
status 1

file devices
device a
at ::
at 0:0::0/128

$ tacd devices devices
devices fault line 3 6 Repeated
! tacd: 'tacd devices --lint devices' says more
status 1

file devices
device a
at ::1
old-key k
key k

$ tacd devices devices
devices fault line 4 6 Repeated
! tacd: 'tacd devices --lint devices' says more
status 1

file devices
device a
key k
device b
device c
at ::1

$ tacd devices devices
devices fault line 3 8 NoKey
! tacd: 'tacd devices --lint devices' says more
status 1

file devices
device a
key k
device b
key k

$ tacd devices devices
devices fault line 1 9 NoAddress
! tacd: 'tacd devices --lint devices' says more
status 1

file devices
device a
connections 0
at x

$ tacd devices devices
devices fault line 2 5 BadValue
! tacd: 'tacd devices --lint devices' says more
status 1

file devices
device a
key k
|key |

$ tacd devices devices
devices fault line 3 5 BadValue
! tacd: 'tacd devices --lint devices' says more
status 1

file devices
device a
connections 2
connections 0

$ tacd devices devices
devices fault line 3 5 BadValue
! tacd: 'tacd devices --lint devices' says more
status 1

file devices
device a b
x

$ tacd devices devices
devices fault line 1 1 BadLine
! tacd: 'tacd devices --lint devices' says more
status 1

file devices
key2
x

$ tacd devices devices
devices fault line 1 1 BadLine
! tacd: 'tacd devices --lint devices' says more
status 1
