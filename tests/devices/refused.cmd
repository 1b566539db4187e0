# Each refusal of docs/DEVICES.md but 7 Limit (tests/generated.py), with the first faulty line.

# 1 BadLine: it is no line of such a file, has a field too many or too few, or a byte that is no symbol.
file devices
devices a

$ tacd devices devices
devices fault line 1 1 BadLine
! tacd: 'tacd devices --lint devices' says more
status 1

file devices
device

$ tacd devices devices
devices fault line 1 1 BadLine
! tacd: 'tacd devices --lint devices' says more
status 1

file devices
device a b

$ tacd devices devices
devices fault line 1 1 BadLine
! tacd: 'tacd devices --lint devices' says more
status 1

file devices
device a
at 1.2.3.4 /8

$ tacd devices devices
devices fault line 2 1 BadLine
! tacd: 'tacd devices --lint devices' says more
status 1

file devices
device a
at ::1
key k
Key l

$ tacd devices devices
devices fault line 4 1 BadLine
! tacd: 'tacd devices --lint devices' says more
status 1

file devices
device a
key

$ tacd devices devices
devices fault line 2 1 BadLine
! tacd: 'tacd devices --lint devices' says more
status 1

file devices
device a
old-key

$ tacd devices devices
devices fault line 2 1 BadLine
! tacd: 'tacd devices --lint devices' says more
status 1

file devices
device a
old-keys k

$ tacd devices devices
devices fault line 2 1 BadLine
! tacd: 'tacd devices --lint devices' says more
status 1

file devices
device a
connections 1 2

$ tacd devices devices
devices fault line 2 1 BadLine
! tacd: 'tacd devices --lint devices' says more
status 1

file devices
device a
key a␉tab

$ tacd devices devices
devices fault line 2 1 BadLine
! tacd: 'tacd devices --lint devices' says more
status 1

file devices
device a␍

$ tacd devices devices
devices fault line 1 1 BadLine
! tacd: 'tacd devices --lint devices' says more
status 1

file devices
device a
key schlüssel

$ tacd devices devices
devices fault line 2 1 BadLine
! tacd: 'tacd devices --lint devices' says more
status 1

# 2 BadName
file devices
|device |

$ tacd devices devices
devices fault line 1 2 BadName
! tacd: 'tacd devices --lint devices' says more
status 1

file devices
device core/1

$ tacd devices devices
devices fault line 1 2 BadName
! tacd: 'tacd devices --lint devices' says more
status 1

file devices
device a23456789-123456789-123456789-123

$ tacd devices devices
devices fault line 1 2 BadName
! tacd: 'tacd devices --lint devices' says more
status 1

# 3 NoDevice: even where the setting is wrong.
file devices
at 192.0.2.1

$ tacd devices devices
devices fault line 1 3 NoDevice
! tacd: 'tacd devices --lint devices' says more
status 1

file devices
at core-1

$ tacd devices devices
devices fault line 1 3 NoDevice
! tacd: 'tacd devices --lint devices' says more
status 1

file devices
|# none|
key k

$ tacd devices devices
devices fault line 2 3 NoDevice
! tacd: 'tacd devices --lint devices' says more
status 1

file devices
|old-key |

$ tacd devices devices
devices fault line 1 3 NoDevice
! tacd: 'tacd devices --lint devices' says more
status 1

file devices
connections 0

$ tacd devices devices
devices fault line 1 3 NoDevice
! tacd: 'tacd devices --lint devices' says more
status 1

# 4 BadPrefix
file devices
device a
at core-1.example

$ tacd devices devices
devices fault line 2 4 BadPrefix
! tacd: 'tacd devices --lint devices' says more
status 1

file devices
device a
at 192.0.2.1/33

$ tacd devices devices
devices fault line 2 4 BadPrefix
! tacd: 'tacd devices --lint devices' says more
status 1

file devices
device a
at 192.0.2.0/

$ tacd devices devices
devices fault line 2 4 BadPrefix
! tacd: 'tacd devices --lint devices' says more
status 1

file devices
device a
at /24

$ tacd devices devices
devices fault line 2 4 BadPrefix
! tacd: 'tacd devices --lint devices' says more
status 1

file devices
device a
at 192.0.2.0/0024

$ tacd devices devices
devices fault line 2 4 BadPrefix
! tacd: 'tacd devices --lint devices' says more
status 1

file devices
device a
at 192.0.2.1/24

$ tacd devices devices
devices fault line 2 4 BadPrefix
! tacd: 'tacd devices --lint devices' says more
status 1

file devices
device a
at 010.0.0.1

$ tacd devices devices
devices fault line 2 4 BadPrefix
! tacd: 'tacd devices --lint devices' says more
status 1

file devices
device a
at ::1/129

$ tacd devices devices
devices fault line 2 4 BadPrefix
! tacd: 'tacd devices --lint devices' says more
status 1

file devices
device a
at 2001:db8::1/64

$ tacd devices devices
devices fault line 2 4 BadPrefix
! tacd: 'tacd devices --lint devices' says more
status 1

file devices
device a
at fe80::1%2

$ tacd devices devices
devices fault line 2 4 BadPrefix
! tacd: 'tacd devices --lint devices' says more
status 1

file devices
device a
at ::ffff:192.0.2.1

$ tacd devices devices
devices fault line 2 4 BadPrefix
! tacd: 'tacd devices --lint devices' says more
status 1

file devices
device a
at ::ffff:0:0/96

$ tacd devices devices
devices fault line 2 4 BadPrefix
! tacd: 'tacd devices --lint devices' says more
status 1

file devices
device a
at ::ffff:c000:200/120

$ tacd devices devices
devices fault line 2 4 BadPrefix
! tacd: 'tacd devices --lint devices' says more
status 1

# 5 BadValue. A key is never printed.
file devices
device a
|key |

$ tacd devices devices
devices fault line 2 5 BadValue
! tacd: 'tacd devices --lint devices' says more
status 1

file devices
device a
key kkkkkkkkkkkkkkkkkkkkkkkkkkkkkkkkkkkkkkkkkkkkkkkkkkkkkkkkkkkkkkkkkkkkkkkkkkkkkkkkkkkkkkkkkkkkkkkkkkkkkkkkkkkkkkkkkkkkkkkkkkkkkkkkk

$ tacd devices devices
devices fault line 2 5 BadValue
! tacd: 'tacd devices --lint devices' says more
status 1

file devices
device a
|old-key |

$ tacd devices devices
devices fault line 2 5 BadValue
! tacd: 'tacd devices --lint devices' says more
status 1

file devices
device a
old-key kkkkkkkkkkkkkkkkkkkkkkkkkkkkkkkkkkkkkkkkkkkkkkkkkkkkkkkkkkkkkkkkkkkkkkkkkkkkkkkkkkkkkkkkkkkkkkkkkkkkkkkkkkkkkkkkkkkkkkkkkkkkkkkkk

$ tacd devices devices
devices fault line 2 5 BadValue
! tacd: 'tacd devices --lint devices' says more
status 1

# It comes before Repeated.
file devices
device a
key k
old-key l
|old-key |

$ tacd devices devices
devices fault line 4 5 BadValue
! tacd: 'tacd devices --lint devices' says more
status 1

file devices
device a
connections 0

$ tacd devices devices
devices fault line 2 5 BadValue
! tacd: 'tacd devices --lint devices' says more
status 1

file devices
device a
connections 10001

$ tacd devices devices
devices fault line 2 5 BadValue
! tacd: 'tacd devices --lint devices' says more
status 1

file devices
device a
connections 000001

$ tacd devices devices
devices fault line 2 5 BadValue
! tacd: 'tacd devices --lint devices' says more
status 1

file devices
device a
connections four

$ tacd devices devices
devices fault line 2 5 BadValue
! tacd: 'tacd devices --lint devices' says more
status 1

# 6 Repeated
file devices
device a
at ::1
key k
device b
device a

$ tacd devices devices
devices fault line 5 6 Repeated
! tacd: 'tacd devices --lint devices' says more
status 1

file devices
device a
key k
key k

$ tacd devices devices
devices fault line 3 6 Repeated
! tacd: 'tacd devices --lint devices' says more
status 1

file devices
device a
old-key k
old-key l

$ tacd devices devices
devices fault line 3 6 Repeated
! tacd: 'tacd devices --lint devices' says more
status 1

# A key isn't the old key of its own device, whichever line comes first.
file devices
device a
key k
old-key k

$ tacd devices devices
devices fault line 3 6 Repeated
! tacd: 'tacd devices --lint devices' says more
status 1

file devices
device a
at ::1
old-key two words
key two words

$ tacd devices devices
devices fault line 4 6 Repeated
! tacd: 'tacd devices --lint devices' says more
status 1

file devices
device a
connections 4
connections 4

$ tacd devices devices
devices fault line 3 6 Repeated
! tacd: 'tacd devices --lint devices' says more
status 1

file devices
device a
at 192.0.2.1
key k
device b
at 192.0.2.1/32

$ tacd devices devices
devices fault line 5 6 Repeated
! tacd: 'tacd devices --lint devices' says more
status 1

file devices
device a
at 2001:db8::
at 2001:DB8:0::0/128

$ tacd devices devices
devices fault line 3 6 Repeated
! tacd: 'tacd devices --lint devices' says more
status 1

# 8 NoKey over all devices, and then 9 NoAddress; each where every line is right.
file devices
device a
device b
at ::1
key k

$ tacd devices devices
devices fault line 1 8 NoKey
! tacd: 'tacd devices --lint devices' says more
status 1

file devices
device a
key k
device b
at ::1

$ tacd devices devices
devices fault line 3 8 NoKey
! tacd: 'tacd devices --lint devices' says more
status 1

# An old key alone is no key.
file devices
device a
at ::1
old-key k

$ tacd devices devices
devices fault line 1 8 NoKey
! tacd: 'tacd devices --lint devices' says more
status 1

file devices
|# a key and no address|
device a
key k

$ tacd devices devices
devices fault line 2 9 NoAddress
! tacd: 'tacd devices --lint devices' says more
status 1

file devices
device a
at ::1
key k
device b
key k
device c
key k

$ tacd devices devices
devices fault line 4 9 NoAddress
! tacd: 'tacd devices --lint devices' says more
status 1

file devices
device a
device b
key k
at ::1/64

$ tacd devices devices
devices fault line 4 4 BadPrefix
! tacd: 'tacd devices --lint devices' says more
status 1
