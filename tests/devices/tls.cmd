# Devices that come inside TLS: lines `tls` and `tls NAME` of a devices' file.
file campus.devices
|# core|
device core-1
at 192.0.2.1
at 2001:db8::1
key wintry-tundra-ridge-41
||
|# all access switches of the campus, one key|
device access
at 192.0.2.128/25
key wide-kelp-forest-0092
connections 4
||
|# an edge router that comes inside TLS alone|
device edge-1
at 203.0.113.1
tls edge-1.example.net

$ tacd devices campus.devices
devices ok: 3 devices, 4 prefixes

# An address is a device's, however the device may come.
$ tacd devices campus.devices 192.0.2.200 203.0.113.1 203.0.113.9
192.0.2.200 access 192.0.2.128/25 line 9
203.0.113.1 edge-1 203.0.113.1/32 line 15
203.0.113.9 may not call
status 5

# With tls alone, in whichever place the line stands, and in the last line without its end.
file devices
device a
tls
at ::1
device b
at ::2
connections 4
tls b.example
device c
at ::3
|  tls|
device d
at ::4
tls␃

$ tacd devices devices ::1 ::2 ::3 ::4
::1 a ::1/128 line 3
::2 b ::2/128 line 5
::3 c ::3/128 line 9
::4 d ::4/128 line 12

# A name is the whole rest of its line, blanks and all. It has up to 64 symbols. Devices may share
# one, which is remarked on.
file devices
device a
at ::1
|tls  two  blanks in front |
device b
at ::2
|tls  two  blanks in front |
device c
at ::3
tls tls
device d
at ::4
tls #
device e
at ::5
|tls  |
device f
at ::6
tls edge-1.nnnnnnnnnnnnnnnnnnnnnnnnnnnnnnnnnnnnnnnnnnnnnnnnnnnnnnnnn

$ tacd devices devices
devices ok: 6 devices, 6 prefixes
line 6: the common name of line 3

# A name that stands again is told with the first line that has it, after what is remarked on the
# key of its device. A 'tls' without a name may stand again.
file names.devices
device a
tls one.example
at ::1
device b
tls
at ::2
device c
key tundra
at ::3
tls one.example
device d
at ::4
tls One.example
device e
tls one.example
at ::5
device f
tls
at ::6
device g
tls One.example
at ::7

$ tacd devices names.devices
devices ok: 7 devices, 7 prefixes
line 8: a key of 6 characters
line 10: the common name of line 2
line 15: the common name of line 2
line 21: the common name of line 13

# An old key beside 'tls', with a name or without one, in whichever order the lines stand.
file both.devices
device a
at ::1
key wintry-tundra-ridge-41
old-key wide-kelp-forest-0092
tls
device b
tls b.example
old-key "wide-kelp-forest"
at ::2
key fjord-and-fell-2026-11
device c
at ::3
key fjord-and-fell-2027-11
old-key wide-kelp-forest-0093

$ tacd devices both.devices
devices ok: 3 devices, 3 prefixes
line 4: an old key beside the 'tls' of line 5
line 8: a key in quotes, which are part of it
line 8: an old key beside the 'tls' of line 7

# Something is remarked on the keys of those devices alone that have one.
file devices
device a
tls a.example
at ::1
device b
key tundra
tls
at ::2
device c
at ::3
tls tundra
device d
at ::4
key tundra
old-key taiga
tls d.example
device e
tls
at ::5
device f
old-key tundra
key wintry-tundra-ridge-41
at ::6

$ tacd devices devices
devices ok: 6 devices, 6 prefixes
line 5: a key of 6 characters
line 13: the key of line 5
line 13: a key of 6 characters
line 14: an old key beside the 'tls' of line 15

# ---- what is refused

# 1 BadLine: it is another word, or has a byte that is no symbol.
file devices
device a
at ::1
TLS

$ tacd devices devices
devices fault line 3 1 BadLine
! tacd: 'tacd devices --lint devices' says more
status 1

file devices
device a
at ::1
tlsa

$ tacd devices devices
devices fault line 3 1 BadLine
! tacd: 'tacd devices --lint devices' says more
status 1

file devices
device a
at ::1
tls-name a

$ tacd devices devices
devices fault line 3 1 BadLine
! tacd: 'tacd devices --lint devices' says more
status 1

file devices
device a
at ::1
tls=a

$ tacd devices devices
devices fault line 3 1 BadLine
! tacd: 'tacd devices --lint devices' says more
status 1

file devices
device a
at ::1
tls␉a

$ tacd devices devices
devices fault line 3 1 BadLine
! tacd: 'tacd devices --lint devices' says more
status 1

file devices
device a
at ::1
tls␍

$ tacd devices devices
devices fault line 3 1 BadLine
! tacd: 'tacd devices --lint devices' says more
status 1

file devices
device a
at ::1
Tls a

$ tacd devices devices
devices fault line 3 1 BadLine
! tacd: 'tacd devices --lint devices' says more
status 1

file devices
device a
at ::1
tls étage

$ tacd devices devices
devices fault line 3 1 BadLine
! tacd: 'tacd devices --lint devices' says more
status 1

# 3 NoDevice: even where the name is wrong.
file devices
tls
device a
at ::1

$ tacd devices devices
devices fault line 1 3 NoDevice
! tacd: 'tacd devices --lint devices' says more
status 1

file devices
tls a
device a
at ::1

$ tacd devices devices
devices fault line 1 3 NoDevice
! tacd: 'tacd devices --lint devices' says more
status 1

file devices
|tls |
device a
at ::1

$ tacd devices devices
devices fault line 1 3 NoDevice
! tacd: 'tacd devices --lint devices' says more
status 1

file devices
tls nnnnnnnnnnnnnnnnnnnnnnnnnnnnnnnnnnnnnnnnnnnnnnnnnnnnnnnnnnnnnnnnn
device a
at ::1

$ tacd devices devices
devices fault line 1 3 NoDevice
! tacd: 'tacd devices --lint devices' says more
status 1

# 5 BadValue: the name is empty, or has over 64 symbols.
file devices
device a
at ::1
|tls |

$ tacd devices devices
devices fault line 3 5 BadValue
! tacd: 'tacd devices --lint devices' says more
status 1

file devices
device a
at ::1
tls nnnnnnnnnnnnnnnnnnnnnnnnnnnnnnnnnnnnnnnnnnnnnnnnnnnnnnnnnnnnnnnnn

$ tacd devices devices
devices fault line 3 5 BadValue
! tacd: 'tacd devices --lint devices' says more
status 1

# It comes before Repeated.
file devices
device a
tls
|tls |

$ tacd devices devices
devices fault line 3 5 BadValue
! tacd: 'tacd devices --lint devices' says more
status 1

# 6 Repeated: a second one of a device, whichever the two are.
file devices
device a
at ::1
tls
key k
tls

$ tacd devices devices
devices fault line 5 6 Repeated
! tacd: 'tacd devices --lint devices' says more
status 1

file devices
device a
at ::1
tls
key k
tls a

$ tacd devices devices
devices fault line 5 6 Repeated
! tacd: 'tacd devices --lint devices' says more
status 1

file devices
device a
at ::1
tls a
key k
tls

$ tacd devices devices
devices fault line 5 6 Repeated
! tacd: 'tacd devices --lint devices' says more
status 1

file devices
device a
at ::1
tls a
key k
tls b

$ tacd devices devices
devices fault line 5 6 Repeated
! tacd: 'tacd devices --lint devices' says more
status 1

file devices
device a
at ::1
tls a
key k
tls a

$ tacd devices devices
devices fault line 5 6 Repeated
! tacd: 'tacd devices --lint devices' says more
status 1

# With tls too a key isn't the old key of its own device.
file devices
device a
at ::1
tls
old-key k
key k

$ tacd devices devices
devices fault line 5 6 Repeated
! tacd: 'tacd devices --lint devices' says more
status 1

# 8 NoKey: neither a key nor tls, wherever others have one.
file devices
device z
tls
at ::2
device a
at ::1
device b
at ::3
tls b

$ tacd devices devices
devices fault line 4 8 NoKey
! tacd: 'tacd devices --lint devices' says more
status 1

# An old key is none, with tls neither.
file devices
device a
at ::1
tls
old-key k

$ tacd devices devices
devices fault line 1 8 NoKey
! tacd: 'tacd devices --lint devices' says more
status 1

file devices
|# two that are right, and one whose key is gone|
device z
at ::2
tls
device y
at ::3
tls y.example
key k
old-key l
device a
old-key k
tls a.example
at ::1

$ tacd devices devices
devices fault line 10 8 NoKey
! tacd: 'tacd devices --lint devices' says more
status 1

# The faults of a whole file come after those of all lines, and NoKey before NoAddress.
file devices
device a
tls
device b
at ::2
old-key k
tls

$ tacd devices devices
devices fault line 3 8 NoKey
! tacd: 'tacd devices --lint devices' says more
status 1

file devices
device a
at ::1
old-key k
tls
tls

$ tacd devices devices
devices fault line 5 6 Repeated
! tacd: 'tacd devices --lint devices' says more
status 1

# 9 NoAddress: with tls too.
file devices
device z
at ::2
key k
device a
tls a.example

$ tacd devices devices
devices fault line 4 9 NoAddress
! tacd: 'tacd devices --lint devices' says more
status 1
