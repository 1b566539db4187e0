# How much a devices' file has, and what is remarked on its keys.
file campus.devices
|# core|
device core-1
at 192.0.2.1
at 2001:db8::1
key wintry-tundra-ridge-41
||
|# all access switches of the campus, one key|
device access
at 192.0.2.128/25
key wide-kelp-forest-0092
connections 4

$ tacd devices campus.devices
devices ok: 2 devices, 3 prefixes

file two.devices
device one
at 127.0.0.1
key tundra
device rest
at 127.0.0.0/30
key taiga

$ tacd devices two.devices
devices ok: 2 devices, 2 prefixes
line 3: a key of 6 characters
line 6: a key of 5 characters

# A key that stands again is told with the first line that has it, and before its size.
file same.devices
device a
key wintry-tundra-41
at ::1
device b
at ::2
at ::3
key wintry-tundra-4
device c
key wintry-tundra-41
at ::4
device d
at ::5
key wintry-tundra-4
device e
at ::6
key wintry-tundra-41

$ tacd devices same.devices
devices ok: 5 devices, 6 prefixes
line 7: a key of 15 characters
line 9: the key of line 2
line 13: the key of line 7
line 13: a key of 15 characters
line 16: the key of line 2

# Old keys may stand twice, be short, and be the keys of others: on none of these something is
# remarked.
file change.devices
device a
at ::1
key wintry-tundra-ridge-41
old-key tundra
device b
at ::2
|old-key  two blanks |
key wide-kelp-forest-0092
device c
old-key wide-kelp-forest-0092
key tundra-of-tundras
at ::3
device d
at ::4
key two-blanks-are-there
old-key tundra

$ tacd devices change.devices
devices ok: 4 devices, 4 prefixes
line 7: a key with a blank at an end, which is part of it

$ tacd devices change.devices ::1 ::3 ::5
::1 a ::1/128 line 2
::3 c ::3/128 line 12
::5 may not call
status 5

# 128 characters of either are fine.
file long.devices
device a
at ::1
key mkkkkkkkkkkkkkkkkkkkkkkkkkkkkkkkkkkkkkkkkkkkkkkkkkkkkkkkkkkkkkkkkkkkkkkkkkkkkkkkkkkkkkkkkkkkkkkkkkkkkkkkkkkkkkkkkkkkkkkkkkkkkkkk
old-key lkkkkkkkkkkkkkkkkkkkkkkkkkkkkkkkkkkkkkkkkkkkkkkkkkkkkkkkkkkkkkkkkkkkkkkkkkkkkkkkkkkkkkkkkkkkkkkkkkkkkkkkkkkkkkkkkkkkkkkkkkkkkkkk

$ tacd devices long.devices
devices ok: 1 devices, 1 prefixes

# Nobody may call.
file none.devices
|# none yet|

$ tacd devices none.devices
devices ok: 0 devices, 0 prefixes

$ tacd devices none.devices 192.0.2.1 ::
192.0.2.1 may not call
:: may not call
status 5

# A key is the whole rest of its line, blanks and all. Leading spaces are dropped.
file blanks.devices
|  device a|
|   at ::/0|
||
|   |
|     # a comment|
|  key  two  blanks  in  front |
connections 10000␃

$ tacd devices blanks.devices
devices ok: 1 devices, 1 prefixes
line 6: a key with a blank at an end, which is part of it

# An empty file, and others of a few lines.
file devices

$ tacd devices devices
devices ok: 0 devices, 0 prefixes

file devices
|# nobody may call|
||
|  # yet|

$ tacd devices devices
devices ok: 0 devices, 0 prefixes

file devices
device a
at 1.2.3.4
key k

$ tacd devices devices
devices ok: 1 devices, 1 prefixes
line 3: a key of 1 characters
line 3: a key of one character, alone or repeated

file devices
device a
key k
at ::/0
at 0.0.0.0/0
connections 10000

$ tacd devices devices
devices ok: 1 devices, 2 prefixes
line 2: a key of 1 characters
line 2: a key of one character, alone or repeated

file devices
device a
at 10.0.0.0/8
|key  a b |
device b
at 10.0.0.0/9
at 10.0.0.0
at ::1
key k
connections 1

$ tacd devices devices
devices ok: 2 devices, 4 prefixes
line 3: a key of 5 characters
line 3: a key with a blank at an end, which is part of it
line 8: a key of 1 characters
line 8: a key of one character, alone or repeated
