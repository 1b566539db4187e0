# Keys of which it is doubtful that they are those that were meant. They count as they stand.

# A blank at an end: of a key and of an old one.
file devices
device a
at ::1
|key wintry-tundra-ridge-41 |
device b
at ::2
|key  wide-kelp-forest-0092|
device c
at ::3
key wide kelp forest 0093
|old-key fjord |
device d
|old-key   fell|
at ::4
key fjord-and-fell-2026-11

$ tacd devices devices
devices ok: 4 devices, 4 prefixes
line 3: a key with a blank at an end, which is part of it
line 6: a key with a blank at an end, which is part of it
line 10: a key with a blank at an end, which is part of it
line 12: a key with a blank at an end, which is part of it

# Quotes of a kind at both ends. With one at one end alone, or two kinds, nothing is said.
file devices
device a
at ::1
key "wintry-tundra-ridge-41"
device b
at ::2
key 'wide-kelp-forest-0092'
device c
at ::3
key "wide-kelp-forest-0093
device d
at ::4
key wide-kelp-forest-0094"
device e
at ::5
key "wide-kelp-forest-0095'
device f
at ::6
key wide-"kelp"-forest-0096
device g
at ::7
key fjord-and-fell-2026-11
old-key ""

$ tacd devices devices
devices ok: 7 devices, 7 prefixes
line 3: a key in quotes, which are part of it
line 6: a key in quotes, which are part of it
line 22: a key in quotes, which are part of it

# A '#' after a blank, also after the first of several. Without a blank before it, it is said of
# nothing, nor where the key begins with it.
file devices
device a
at ::1
key wintry-tundra-ridge-41 # of the campus
device b
at ::2
key wide kelp forest 0092 #2
device c
at ::3
key wide-kelp-forest#0093
device d
at ::4
key # wide-kelp-forest-0094
device e
at ::5
key wide kelp forest# 0095
device f
at ::6
key fjord-and-fell-2026-11
old-key fjord #

$ tacd devices devices
devices ok: 6 devices, 6 prefixes
line 3: a key with '#' after a blank: no comment, but part of it
line 6: a key with '#' after a blank: no comment, but part of it
line 19: a key with '#' after a blank: no comment, but part of it

# An assignment, as others' configurations have it.
file devices
device a
at ::1
key = wintry-tundra-ridge-41
device b
at ::2
key key = wide-kelp-forest-0092
device c
at ::3
key key=wide-kelp-forest-0093
device d
at ::4
key =wide-kelp-forest-0094
device e
at ::5
key keys = wide-kelp-forest-0095
device f
at ::6
key a = wide-kelp-forest-0096
device g
at ::7
key fjord-and-fell-2026-11
old-key = fjord

$ tacd devices devices
devices ok: 7 devices, 7 prefixes
line 3: a key that begins with 'key =' or '= ', which is part of it
line 6: a key that begins with 'key =' or '= ', which is part of it
line 9: a key that begins with 'key =' or '= ', which is part of it
line 22: a key that begins with 'key =' or '= ', which is part of it

# Cisco's type 7: of `cisco` under two places of its mask, in digits of either case, and behind a
# `7`, where it is said of four hexadecimal digits and more that are even in number.
file devices
device a
at ::1
key 7 02050D480809
device b
at ::2
key 02050D480809
device c
at ::3
key 070C285F4D06
device d
at ::4
key 02050d480809
device e
at ::5
key 7 0000
device f
at ::6
key fjord-and-fell-2026-11
old-key 070c285f4d06

$ tacd devices devices
devices ok: 6 devices, 6 prefixes
line 3: a key of 14 characters
line 3: a key that looks like Cisco's type 7: it is taken as it stands
line 6: a key of 12 characters
line 6: a key that looks like Cisco's type 7: it is taken as it stands
line 9: a key of 12 characters
line 9: a key that looks like Cisco's type 7: it is taken as it stands
line 12: a key of 12 characters
line 12: a key that looks like Cisco's type 7: it is taken as it stands
line 15: a key of 6 characters
line 15: a key that looks like Cisco's type 7: it is taken as it stands
line 19: a key that looks like Cisco's type 7: it is taken as it stands

# What isn't: of keys as `openssl rand -hex 16` makes them those that begin with such a number too,
# an odd number of digits, a place over 15, what hides no symbols, decimal digits, and a `7` with
# other words.
file devices
device a
at ::1
key 0205acbf2ab9a5e1b0c9c2a2b8d1f0e3
device b
at ::2
key 0205ACBF2AB9A5E1B0C9C2A2B8D1F0E3
device c
at ::3
key 02050D480809020
device d
at ::4
key 16050D4808090205
device e
at ::5
key 1234567812345678
device f
at ::6
key 7
device g
at ::7
key 7 kelp forests
device h
at ::8
key 7 02050D480809 x
device i
at ::9
key 7 02050D48080

$ tacd devices devices
devices ok: 9 devices, 9 prefixes
line 9: a key of 15 characters
line 18: a key of 1 characters
line 18: a key of one character, alone or repeated
line 21: a key of 14 characters
line 27: a key of 13 characters

# One character, however often. Of several doubts of a key the first is said, in the order of this
# file.
file devices
device a
at ::1
key kkkkkkkkkkkkkkkk
device b
at ::2
key kkkkkkkkkkkkkkkl
device c
at ::3
|key  |
device d
at ::4
|key "wide-kelp-forest" |
device e
at ::5
key "wide-kelp-forest #"
device f
at ::6
key = wide-kelp-forest #
device g
at ::7
key fjord-and-fell-2026-11
old-key ==
device h
at ::8
key ==================

$ tacd devices devices
devices ok: 8 devices, 8 prefixes
line 3: a key of one character, alone or repeated
line 9: a key of 1 characters
line 9: a key with a blank at an end, which is part of it
line 12: a key with a blank at an end, which is part of it
line 15: a key in quotes, which are part of it
line 18: a key with '#' after a blank: no comment, but part of it
line 22: a key of one character, alone or repeated
line 25: a key of one character, alone or repeated

# Addresses are told alone.
$ tacd devices devices ::1
::1 a ::1/128 line 2
