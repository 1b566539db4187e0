# What `at` refuses: it is no address or no length, or bits are set after the prefix, or it is IPv4
# that is written as IPv6.
file devices
device a
|at |

$ tacd devices devices
devices fault line 2 4 BadPrefix
! tacd: 'tacd devices --lint devices' says more
status 1

file devices
device a
at core.example

$ tacd devices devices
devices fault line 2 4 BadPrefix
! tacd: 'tacd devices --lint devices' says more
status 1

file devices
device a
at 1.2.3/8

$ tacd devices devices
devices fault line 2 4 BadPrefix
! tacd: 'tacd devices --lint devices' says more
status 1

file devices
device a
at 1.2.3.256

$ tacd devices devices
devices fault line 2 4 BadPrefix
! tacd: 'tacd devices --lint devices' says more
status 1

file devices
device a
at 192.0.2.1/

$ tacd devices devices
devices fault line 2 4 BadPrefix
! tacd: 'tacd devices --lint devices' says more
status 1

file devices
device a
at 192.0.2.0/33

$ tacd devices devices
devices fault line 2 4 BadPrefix
! tacd: 'tacd devices --lint devices' says more
status 1

file devices
device a
at 0.0.0.0/128

$ tacd devices devices
devices fault line 2 4 BadPrefix
! tacd: 'tacd devices --lint devices' says more
status 1

file devices
device a
at 192.0.2.0/-1

$ tacd devices devices
devices fault line 2 4 BadPrefix
! tacd: 'tacd devices --lint devices' says more
status 1

file devices
device a
at 192.0.2.0/24/24

$ tacd devices devices
devices fault line 2 4 BadPrefix
! tacd: 'tacd devices --lint devices' says more
status 1

file devices
device a
at 192.0.2.1/31

$ tacd devices devices
devices fault line 2 4 BadPrefix
! tacd: 'tacd devices --lint devices' says more
status 1

file devices
device a
at 128.0.0.0/0

$ tacd devices devices
devices fault line 2 4 BadPrefix
! tacd: 'tacd devices --lint devices' says more
status 1

file devices
device a
at ::1/127

$ tacd devices devices
devices fault line 2 4 BadPrefix
! tacd: 'tacd devices --lint devices' says more
status 1

file devices
device a
at 8000::/0

$ tacd devices devices
devices fault line 2 4 BadPrefix
! tacd: 'tacd devices --lint devices' says more
status 1

file devices
device a
at [::1]

$ tacd devices devices
devices fault line 2 4 BadPrefix
! tacd: 'tacd devices --lint devices' says more
status 1
