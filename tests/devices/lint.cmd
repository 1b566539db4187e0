# What 'tacd devices --lint' says of each mistake, where, and what was meant.

# ---- bytes that are no symbols

# Lines that end in CR LF are told each.
file devices
device a␍
at ::1␍
key wintry-tundra-ridge-41␍

$ tacd devices --lint devices
line 1 column 9: a carriage return: lines end in LF alone
line 2 column 7: a carriage return: lines end in LF alone
line 3 column 27: a carriage return: lines end in LF alone
status 1

file devices
device a
␉at ::1
key␉wintry-tundra-ridge-41

$ tacd devices --lint devices
line 2 column 1: a tab: is a space meant?
line 3 column 4: a tab: is a space meant?
status 1

# A byte order mark begins the first line alone, and has three bytes.
file devices
﻿device a
at ::1
key wintry-tundra-ridge-41

$ tacd devices --lint devices
line 1 column 1: a byte order mark: save the file without one
status 1

file devices
device a
﻿at ::1
key schlüssel
|# étage|

$ tacd devices --lint devices
line 2 column 1: a byte that isn't printable ASCII
line 3 column 9: a byte that isn't printable ASCII
line 4 column 3: a byte that isn't printable ASCII
status 1

# ---- words that no line begins with

file devices
device a
ip 192.0.2.1
secret wintry-tundra-ridge-41

$ tacd devices --lint devices
line 2 column 1: no line of a devices' file begins so: is 'at' meant?
line 3 column 1: no line of a devices' file begins so: is 'key' meant?
status 1

# Words of other files, and words that are near: at most two changes, and at most half as many as
# the word has bytes. Capitals are no change.
file words
device a
ip 192.0.2.1
IP 192.0.2.2
addr 192.0.2.3
address 192.0.2.4
ipaddr 192.0.2.5
ip-address 192.0.2.6
ipv4 192.0.2.7
ipv6 192.0.2.8
net 192.0.2.9
network 192.0.2.10
subnet 192.0.2.11
prefix 192.0.2.12
ad 192.0.2.13
ats 192.0.2.14
aat 192.0.2.15
secret wintry-tundra-ridge-16
Secret wintry-tundra-ridge-17
password wintry-tundra-ridge-18
passwd wintry-tundra-ridge-19
psk wintry-tundra-ridge-20
shared-secret wintry-tundra-ridge-21
KEY wintry-tundra-ridge-23
keys wintry-tundra-ridge-24
ley wintry-tundra-ridge-25
oldkey wintry-tundra-26
old_key wintry-tundra-27
Old-Key wintry-tundra-28
old-kee wintry-tundra-29
old-secret wintry-tundra-30
devices d31
Device d32
dev1ce d33
devic d34
router d35
switch d36
hostname d37
name d38
TLS
tl
conections 4
connection 4
Connections 4
maxsess 4
host 192.0.2.1
client 192.0.2.0/24
nas ::1
host core-1
client core-2
nas core-3
x
k
tundra wintry
deviceabcdefghi x
shared-secret-x k
kye wintry
tsl

$ tacd devices --lint words
line 2 column 1: no line of a devices' file begins so: is 'at' meant?
line 3 column 1: no line of a devices' file begins so: is 'at' meant?
line 4 column 1: no line of a devices' file begins so: is 'at' meant?
line 5 column 1: no line of a devices' file begins so: is 'at' meant?
line 6 column 1: no line of a devices' file begins so: is 'at' meant?
line 7 column 1: no line of a devices' file begins so: is 'at' meant?
line 8 column 1: no line of a devices' file begins so: is 'at' meant?
line 9 column 1: no line of a devices' file begins so: is 'at' meant?
line 10 column 1: no line of a devices' file begins so: is 'at' meant?
line 11 column 1: no line of a devices' file begins so: is 'at' meant?
line 12 column 1: no line of a devices' file begins so: is 'at' meant?
line 13 column 1: no line of a devices' file begins so: is 'at' meant?
line 14 column 1: no line of a devices' file begins so: is 'at' meant?
line 15 column 1: no line of a devices' file begins so: is 'at' meant?
line 16 column 1: no line of a devices' file begins so: is 'at' meant?
line 17 column 1: no line of a devices' file begins so: is 'key' meant?
line 18 column 1: no line of a devices' file begins so: is 'key' meant?
line 19 column 1: no line of a devices' file begins so: is 'key' meant?
line 20 column 1: no line of a devices' file begins so: is 'key' meant?
line 21 column 1: no line of a devices' file begins so: is 'key' meant?
line 22 column 1: no line of a devices' file begins so: is 'key' meant?
line 23 column 1: no line of a devices' file begins so: is 'key' meant?
line 24 column 1: no line of a devices' file begins so: is 'key' meant?
line 25 column 1: no line of a devices' file begins so: is 'key' meant?
line 26 column 1: no line of a devices' file begins so: is 'old-key' meant?
line 27 column 1: no line of a devices' file begins so: is 'old-key' meant?
line 28 column 1: no line of a devices' file begins so: is 'old-key' meant?
line 29 column 1: no line of a devices' file begins so: is 'old-key' meant?
line 30 column 1: no line of a devices' file begins so: is 'old-key' meant?
line 31 column 1: no line of a devices' file begins so: is 'device' meant?
line 32 column 1: no line of a devices' file begins so: is 'device' meant?
line 33 column 1: no line of a devices' file begins so: is 'device' meant?
line 34 column 1: no line of a devices' file begins so: is 'device' meant?
line 35 column 1: no line of a devices' file begins so: is 'device' meant?
line 36 column 1: no line of a devices' file begins so: is 'device' meant?
line 37 column 1: no line of a devices' file begins so: is 'device' meant?
line 38 column 1: no line of a devices' file begins so: is 'device' meant?
line 39 column 1: no line of a devices' file begins so: is 'tls' meant?
line 40 column 1: no line of a devices' file begins so: is 'tls' meant?
line 41 column 1: no line of a devices' file begins so: is 'connections' meant?
line 42 column 1: no line of a devices' file begins so: is 'connections' meant?
line 43 column 1: no line of a devices' file begins so: is 'connections' meant?
line 44 column 1: no line of a devices' file begins so: is 'connections' meant?
line 45 column 1: no line of a devices' file begins so: is 'at' meant?
line 46 column 1: no line of a devices' file begins so: is 'at' meant?
line 47 column 1: no line of a devices' file begins so: is 'at' meant?
line 48 column 1: no line of a devices' file begins so: is 'device' meant?
line 49 column 1: no line of a devices' file begins so: is 'device' meant?
line 50 column 1: no line of a devices' file begins so: is 'device' meant?
line 51 column 1: no line of a devices' file begins with this word
line 52 column 1: no line of a devices' file begins with this word
line 53 column 1: no line of a devices' file begins with this word
line 54 column 1: no line of a devices' file begins with this word
line 55 column 1: no line of a devices' file begins with this word
line 56 column 1: no line of a devices' file begins with this word
line 57 column 1: no line of a devices' file begins with this word
status 1

# Lines of other files.
file others
device = core-1
at = 192.0.2.1
address = 192.0.2.1
secret=wintry-tundra-ridge-41
connections=4
host = 192.0.2.1 {
|  key = "wintry-tundra-ridge-41"|
}
prompt = "Name: "
group ops
permit show .*
user bob in ops
login-hash $6$
service shell
policy 3

$ tacd devices --lint others
line 1 column 8: no '=' stands here: is 'device VALUE' meant?
line 2 column 4: no '=' stands here: is 'at VALUE' meant?
line 3 column 1: no '=' stands here: is 'at VALUE' meant?
line 4 column 1: no '=' stands here: is 'key VALUE' meant?
line 5 column 1: no '=' stands here: is 'connections VALUE' meant?
line 6 column 1: a line of another program's file: 'tacd import --devices-to' reads tac_plus's
line 8 column 1: a line of another program's file: 'tacd import --devices-to' reads tac_plus's
line 9 column 1: a line of another program's file: 'tacd import --devices-to' reads tac_plus's
line 10 column 1: a line of a policy, not of a devices' file: 'tacd lint' looks at those
line 11 column 1: a line of a policy, not of a devices' file: 'tacd lint' looks at those
line 12 column 1: a line of a policy, not of a devices' file: 'tacd lint' looks at those
line 13 column 1: a line of a policy, not of a devices' file: 'tacd lint' looks at those
line 14 column 1: a line of a policy, not of a devices' file: 'tacd lint' looks at those
line 15 column 1: a line of a policy, not of a devices' file: 'tacd lint' looks at those
status 1

# ---- values

file values
device
|device |
|device  a|
|device a |
|device a  |
device a # core
device a b
|device a  b|
device core/1
device "a"
device a23456789-123456789-123456789-123
key
|old-key |
at
connections
|tls |
connections 0
connections 10001
connections 000001
connections four
connections 1 2
connections 4 # each
key kkkkkkkkkkkkkkkkkkkkkkkkkkkkkkkkkkkkkkkkkkkkkkkkkkkkkkkkkkkkkkkkkkkkkkkkkkkkkkkkkkkkkkkkkkkkkkkkkkkkkkkkkkkkkkkkkkkkkkkkkkkkkkkkk
old-key kkkkkkkkkkkkkkkkkkkkkkkkkkkkkkkkkkkkkkkkkkkkkkkkkkkkkkkkkkkkkkkkkkkkkkkkkkkkkkkkkkkkkkkkkkkkkkkkkkkkkkkkkkkkkkkkkkkkkkkkkkkkkkkkk
tls nnnnnnnnnnnnnnnnnnnnnnnnnnnnnnnnnnnnnnnnnnnnnnnnnnnnnnnnnnnnnnnnn
|    device a/b|

$ tacd devices --lint values
line 1 column 7: a value is missing at its end
line 2 column 8: a value is missing at its end
line 3 column 8: two spaces in a row, where words are set apart by one
line 4 column 9: it ends with a space
line 5 column 10: it ends with a space
line 6 column 10: no comment stands after a value: give it a line of its own
line 7 column 10: after 'device' one value may follow, and nothing else
line 8 column 10: two spaces in a row, where words are set apart by one
line 9 column 12: no byte of a name: these are A-Z a-z 0-9 _ - . @
line 10 column 8: no byte of a name: these are A-Z a-z 0-9 _ - . @
line 11 column 8: a name of over 32 bytes
line 12 column 4: a value is missing at its end
line 13 column 9: a value is missing at its end
line 14 column 3: a value is missing at its end
line 15 column 12: a value is missing at its end
line 16 column 5: a value is missing at its end
line 17 column 13: no number of 1 to 10000, of 1 to 5 digits
line 18 column 13: no number of 1 to 10000, of 1 to 5 digits
line 19 column 13: no number of 1 to 10000, of 1 to 5 digits
line 20 column 13: no number of 1 to 10000, of 1 to 5 digits
line 21 column 15: after 'connections' one value may follow, and nothing else
line 22 column 15: no comment stands after a value: give it a line of its own
line 23 column 5: a key of over 128 characters
line 24 column 9: a key of over 128 characters
line 25 column 5: a common name of over 64 characters
line 26 column 13: no byte of a name: these are A-Z a-z 0-9 _ - . @
status 1

# ---- addresses

# Host bits: the prefix is that of the address, and the address alone may be meant as well.
file bits
device a
at 192.0.2.1/24
at 192.0.2.129/25
at 10.1.2.3/8
at 255.255.255.255/0
at 192.0.2.3/31
at 2001:db8::1/64
at 2001:db8:ffff::1/33
at ffff::/0

$ tacd devices --lint bits
line 2 column 4: bits are set after the first 24: is '192.0.2.0/24' meant, or '192.0.2.1'?
line 3 column 4: bits are set after the first 25: is '192.0.2.128/25' meant, or '192.0.2.129'?
line 4 column 4: bits are set after the first 8: is '10.0.0.0/8' meant, or '10.1.2.3'?
line 5 column 4: bits are set after the first 0: is '0.0.0.0/0' meant, or '255.255.255.255'?
line 6 column 4: bits are set after the first 31: is '192.0.2.2/31' meant, or '192.0.2.3'?
line 7 column 4: bits are set after the first 64: is '2001:db8::/64' meant, or '2001:db8::1'?
line 8 column 4: bits are set after the first 33: is '2001:db8:8000::/33' meant, or '2001:db8:ffff::1'?
line 9 column 4: bits are set after the first 0: is '::/0' meant, or 'ffff::'?
status 1

# Netmasks and wildcard masks, after a space and after a slash.
file masks
device a
at 192.0.2.0 255.255.255.0
at 192.0.2.129 255.255.255.128
at 192.0.2.0/255.255.255.0
at 192.0.2.1/255.255.255.255
at 0.0.0.0 0.0.0.0
at 192.0.2.0 0.0.0.255
at 192.0.2.1 0.0.0.0
at 10.0.0.0/255.0.0.0
at 128.0.0.1 128.0.0.0

$ tacd devices --lint masks
line 2 column 14: a netmask: is '192.0.2.0/24' meant?
line 3 column 16: a netmask: is '192.0.2.128/25' meant?
line 4 column 14: a netmask: is '192.0.2.0/24' meant?
line 5 column 14: a netmask: is '192.0.2.1' meant?
line 6 column 12: a netmask: is '0.0.0.0/0' meant?
line 7 column 14: a netmask: is '192.0.2.0/24' meant?
line 8 column 14: a netmask: is '192.0.2.1' meant?
line 9 column 13: a netmask: is '10.0.0.0/8' meant?
line 10 column 14: a netmask: is '128.0.0.0/1' meant?
status 1

# Several, names, and what is no address.
file places
device a
at 192.0.2.1 192.0.2.2
at 192.0.2.1 192.0.2.2 192.0.2.3
at 192.0.2.0/24 2001:db8::/64
at 192.0.2.1,192.0.2.2
at 192.0.2.0/25,192.0.2.128/25
at 192.0.2.1-192.0.2.9
at core-1.example.net
at core-1
at core-1.example.net/24
at ::ffff:192.0.2.1
at ::ffff:c000:200/120
at ::ffff:192.0.2.1/24
at fe80::1%2
at 192.0.2.1/33
at 192.0.2.0/
at 192.0.2.0/0024
at 192.0.2.0/-1
at 2001:db8::/129
at 010.0.0.1
at 192.0.2
at 192.0.2.256
at 192.0.2.*
at [::1]
at 192.0.2.1:49
at /24
at 192.0.2.1 # core
|at 192.0.2.1 |
|at  192.0.2.1|
at 192.0.2.0 /24
at any of them

$ tacd devices --lint places
line 2 column 14: two addresses on a line: each has a line 'at' of its own
line 3 column 14: two addresses on a line: each has a line 'at' of its own
line 4 column 17: two addresses on a line: each has a line 'at' of its own
line 5 column 14: two addresses on a line: each has a line 'at' of its own
line 6 column 17: two addresses on a line: each has a line 'at' of its own
line 7 column 14: a range: give each address or prefix of it a line 'at' of its own
line 8 column 4: a host name: only addresses stand here, as 'getent ahosts NAME' prints them
line 9 column 4: a host name: only addresses stand here, as 'getent ahosts NAME' prints them
line 10 column 4: a host name: only addresses stand here, as 'getent ahosts NAME' prints them
line 11 column 4: IPv4 written as IPv6: is '192.0.2.1' meant?
line 12 column 4: IPv4 written as IPv6: is '192.0.2.0/24' meant?
line 13 column 4: IPv4 written as IPv6: is '192.0.2.0/24' meant?
line 14 column 12: a scope: an address has none here
line 15 column 14: no length: 1 to 3 digits, up to 32
line 16 column 14: no length: 1 to 3 digits, up to 32
line 17 column 14: no length: 1 to 3 digits, up to 32
line 18 column 14: no length: 1 to 3 digits, up to 32
line 19 column 15: no length: 1 to 3 digits, up to 128
line 20 column 4: no IPv4 address: four numbers of 0 to 255, without zeros before them
line 21 column 4: no IPv4 address: four numbers of 0 to 255, without zeros before them
line 22 column 4: no IPv4 address: four numbers of 0 to 255, without zeros before them
line 23 column 4: no address, as 192.0.2.1, and no prefix, as 192.0.2.0/24
line 24 column 4: no address, as 192.0.2.1, and no prefix, as 192.0.2.0/24
line 25 column 4: no address, as 192.0.2.1, and no prefix, as 192.0.2.0/24
line 26 column 4: no address, as 192.0.2.1, and no prefix, as 192.0.2.0/24
line 27 column 14: no comment stands after a value: give it a line of its own
line 28 column 13: it ends with a space
line 29 column 4: two spaces in a row, where words are set apart by one
line 30 column 14: after 'at' one value may follow, and nothing else
line 31 column 8: after 'at' one value may follow, and nothing else
status 1

# ---- lines that are right by themselves

file devices
|# the first of all|
key wintry-tundra-ridge-41
device a
at ::1

$ tacd devices --lint devices
line 2 column 1: no device begins before this line: is a line 'device NAME' missing?
status 1

file devices
device a
at ::1
key wintry-tundra-ridge-41
device b
|  device a|

$ tacd devices --lint devices
line 5 column 3: a device of this name begins at line 1 already
status 1

file devices
device a
at 192.0.2.1
key wintry-tundra-ridge-41
device b
at 192.0.2.1/32

$ tacd devices --lint devices
line 5 column 1: line 2 has these addresses already
status 1

file devices
device a
at 2001:db8::
key wintry-tundra-ridge-41
at 2001:DB8:0::0/128

$ tacd devices --lint devices
line 4 column 1: line 2 has these addresses already
status 1

# Of a setting that stands twice the first of its own device is named.
file devices
device a
at ::1
key wintry-tundra-ridge-41
connections 1
device b
connections 2
key wide-kelp-forest-0092
connections 2
key wide-kelp-forest-0092

$ tacd devices --lint devices
line 8 column 1: a second 'connections' of its device: the first is at line 6
status 1

file devices
device a
at ::1
tls
tls a

$ tacd devices --lint devices
line 4 column 1: a second 'tls' of its device: the first is at line 3
status 1

file devices
device a
at ::1
old-key wide-kelp-forest-0092
key wide-kelp-forest-0092

$ tacd devices --lint devices
line 4 column 1: the key of line 3: a device's key and its old one differ
status 1

file devices
device a
key wide-kelp-forest-0092
key wide-kelp-forest-0092

$ tacd devices --lint devices
line 3 column 1: a second 'key' of its device: the first is at line 2
status 1

# Each device that lacks something, by what it lacks first.
file devices
device a
device b
at ::1
device c
key wintry-tundra-ridge-41
device d
at ::2
old-key wintry-tundra-ridge-41
tls
device e
at ::3
tls
device f
tls f

$ tacd devices --lint devices
line 1 column 1: this device has neither 'key' nor 'tls', or an 'old-key' and no 'key'
line 2 column 1: this device has neither 'key' nor 'tls', or an 'old-key' and no 'key'
line 4 column 1: this device has no line 'at'
line 6 column 1: this device has neither 'key' nor 'tls', or an 'old-key' and no 'key'
line 13 column 1: this device has no line 'at'
status 1

# What a line can't be by itself is told of each; what the lines can't be together, of the first.
file devices
device a
device a
ip ::1
at ::1
at ::1

$ tacd devices --lint devices
line 2 column 1: a device of this name begins at line 1 already
line 3 column 1: no line of a devices' file begins so: is 'at' meant?
status 1

# ---- files that may stand

file devices
device a
at ::1
key wintry-tundra-ridge-41

$ tacd devices --lint devices

file devices

$ tacd devices --lint devices

file devices
|# nobody may call|

$ tacd devices --lint devices

# What is remarked on, in the order of the lines, at the value. No key is shown.
file devices
device a
|  old-key "taiga"|
key tundra
at ::1
tls a.example
device b
key tundra
at ::2
tls a.example
device c
key = wide-kelp-forest-0092
at ::3
device d
|key wide-kelp-forest-0091 |
at ::4
device e
key wide-kelp-forest-0093 # of e
at ::5
device f
key 7 02050D480809
at ::6
device g
key kkkkkkkkkkkkkkkk
at ::7

$ tacd devices --lint devices
line 2 column 11: a key in quotes, which are part of it: is the key without them meant?
line 2 column 11: an old key beside the 'tls' of line 5: is it still needed?
line 3 column 5: a key of 6 characters: RFC 8907 wants at least 16
line 7 column 5: the key of line 3: is one of its own meant?
line 7 column 5: a key of 6 characters: RFC 8907 wants at least 16
line 9 column 5: the common name of line 5: is one of its own meant?
line 11 column 5: a key that begins with 'key =' or '= ', which is part of it: is 'key TEXT' meant?
line 14 column 5: a key with a blank at an end, which is part of it: is that meant?
line 17 column 5: a key with '#' after a blank: no comment, but part of it: a comment has a line of its own
line 20 column 5: a key of 14 characters: RFC 8907 wants at least 16
line 20 column 5: a key that looks like Cisco's type 7: it is taken as it stands: is the key that it hides meant?
line 23 column 5: a key of one character, alone or repeated: is that meant?
status 5

# ---- the command line, and what can't be read or written

$ tacd devices --lint devices ::1
! error: the argument '--lint' cannot be used with '[ADDRESS]...'
!
! Usage: tacd devices --lint <FILE> [ADDRESS]...
!
! For more information, try '--help'.
status 2

$ tacd devices --lint nowhere
! tacd: nowhere: No such file or directory (os error 2)
status 4

folder here

$ tacd devices --lint here
! tacd: here: it is a folder
status 4

$ tacd devices --lint devices > /dev/full
! tacd: the output could not be written
status 4

# ---- a devices' file that is taken for a policy

file devices
|# core|
||
device a
at ::1

$ tacd lint devices
line 3 column 1: refused: 1 BadLine: no line of a policy begins with this word: is 'service' meant?
line 4 column 1: refused: 1 BadLine: no line of a policy begins with this word
! tacd: devices: this is a devices' file: 'tacd devices --lint devices' looks at it
status 1

# One that ends its lines in CR LF as well.
file devices
|# core␍|
␍
device a␍

$ tacd lint devices
line 1 column 7: a carriage return: lines end in LF alone
line 2 column 1: a carriage return: lines end in LF alone
line 3 column 9: a carriage return: lines end in LF alone
! tacd: devices: this is a devices' file: 'tacd devices --lint devices' looks at it
status 1

# A policy that is refused is none.
file policy
group ops
permit (

$ tacd lint policy
line 2 column 8: refused: 5 BadPattern 3 Unclosed at 0
status 1
