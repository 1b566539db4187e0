# Which device an address is: that of the longest prefix, wherever it stands.
file devices
device wide
at 10.0.0.0/8
at 2001:db8::/32
key k
device narrow
at 10.1.0.0/16
at 10.1.2.3
key k
device middle
at 10.1.2.0/24
at 2001:db8:0:1::/64
at ::/128
key k

$ tacd devices devices 10.0.0.0 10.255.255.255 10.2.0.0
10.0.0.0 wide 10.0.0.0/8 line 2
10.255.255.255 wide 10.0.0.0/8 line 2
10.2.0.0 wide 10.0.0.0/8 line 2

$ tacd devices devices 10.1.0.0 10.1.1.255 10.1.2.0 10.1.2.2 10.1.2.3 10.1.2.4 10.1.3.0 10.1.255.255
10.1.0.0 narrow 10.1.0.0/16 line 6
10.1.1.255 narrow 10.1.0.0/16 line 6
10.1.2.0 middle 10.1.2.0/24 line 10
10.1.2.2 middle 10.1.2.0/24 line 10
10.1.2.3 narrow 10.1.2.3/32 line 7
10.1.2.4 middle 10.1.2.0/24 line 10
10.1.3.0 narrow 10.1.0.0/16 line 6
10.1.255.255 narrow 10.1.0.0/16 line 6

# An address that may not call doesn't keep others from being told.
$ tacd devices devices 9.255.255.255 10.1.2.3 11.0.0.0
9.255.255.255 may not call
10.1.2.3 narrow 10.1.2.3/32 line 7
11.0.0.0 may not call
status 5

# The same address twice is told twice, each as it is written.
$ tacd devices devices 2001:DB8:0:1::0007 2001:db8:0:1::7 2001:db8:0:2:: 2001:db7:ffff:: 2001:db9::
2001:DB8:0:1::0007 middle 2001:db8:0:1::/64 line 11
2001:db8:0:1::7 middle 2001:db8:0:1::/64 line 11
2001:db8:0:2:: wide 2001:db8::/32 line 3
2001:db7:ffff:: may not call
2001:db9:: may not call
status 5

# IPv4 that came as IPv6 is looked up as IPv4, in whichever way it is written.
$ tacd devices devices ::ffff:10.1.2.3 ::ffff:a01:203 0:0:0:0:0:FFFF:10.1.2.4
::ffff:10.1.2.3 narrow 10.1.2.3/32 line 7
::ffff:a01:203 narrow 10.1.2.3/32 line 7
0:0:0:0:0:FFFF:10.1.2.4 middle 10.1.2.0/24 line 10

$ tacd devices devices ::ffff:11.1.2.3 ::10.1.2.3 ::fffe:10.1.2.3 1::ffff:10.1.2.3
::ffff:11.1.2.3 may not call
::10.1.2.3 may not call
::fffe:10.1.2.3 may not call
1::ffff:10.1.2.3 may not call
status 5

$ tacd devices devices :: 0.0.0.0
:: middle ::/128 line 12
0.0.0.0 may not call
status 5

# All addresses of one kind aren't those of the other.
file four
device all
at 0.0.0.0/0
key k

$ tacd devices four 255.255.255.255 ::ffff:1.2.3.4 ::1
255.255.255.255 all 0.0.0.0/0 line 2
::ffff:1.2.3.4 all 0.0.0.0/0 line 2
::1 may not call
status 5

file six
device all
key k
at ::/0
at 8000::/1
at ffff:ffff:ffff:ffff:ffff:ffff:ffff:ffff

$ tacd devices six ::1 7fff:: 8000:: ffff:ffff:ffff:ffff:ffff:ffff:ffff:fffe ffff:ffff:ffff:ffff:ffff:ffff:ffff:ffff
::1 all ::/0 line 3
7fff:: all ::/0 line 3
8000:: all 8000::/1 line 4
ffff:ffff:ffff:ffff:ffff:ffff:ffff:fffe all 8000::/1 line 4
ffff:ffff:ffff:ffff:ffff:ffff:ffff:ffff all ffff:ffff:ffff:ffff:ffff:ffff:ffff:ffff/128 line 5

$ tacd devices six 1.2.3.4 ::ffff:1.2.3.4
1.2.3.4 may not call
::ffff:1.2.3.4 may not call
status 5

# A prefix is printed as RFC 5952 has addresses, with its length in digits.
file written
device a
at 2001:DB8:0000:0::/048
key k

$ tacd devices written 2001:db8:0:ffff::
2001:db8:0:ffff:: a 2001:db8::/48 line 2

# Prefixes of IPv4 and IPv6 of four devices, each within another.
file mixed
device a
at 10.0.0.0/8
key k
device b
at 10.1.0.0/16
at 10.1.2.3
key k
device c
at 10.1.2.0/24
at 2001:db8::/32
key k
device d
at 2001:db8:0:1::/64
key k

$ tacd devices mixed 10.0.0.0 10.255.255.255 9.255.255.255 11.0.0.0 10.1.0.0 10.1.255.255 10.2.0.0 10.1.2.0 10.1.2.2 10.1.2.3 10.1.2.4 ::ffff:10.1.2.3 ::ffff:11.1.2.3 ::10.1.2.3 2001:db8:: 2001:db8:0:1:: 2001:db8:0:1:ffff:ffff:ffff:ffff 2001:db8:0:2:: 2001:db9:: a01:203::
10.0.0.0 a 10.0.0.0/8 line 2
10.255.255.255 a 10.0.0.0/8 line 2
9.255.255.255 may not call
11.0.0.0 may not call
10.1.0.0 b 10.1.0.0/16 line 5
10.1.255.255 b 10.1.0.0/16 line 5
10.2.0.0 a 10.0.0.0/8 line 2
10.1.2.0 c 10.1.2.0/24 line 9
10.1.2.2 c 10.1.2.0/24 line 9
10.1.2.3 b 10.1.2.3/32 line 6
10.1.2.4 c 10.1.2.0/24 line 9
::ffff:10.1.2.3 b 10.1.2.3/32 line 6
::ffff:11.1.2.3 may not call
::10.1.2.3 may not call
2001:db8:: c 2001:db8::/32 line 10
2001:db8:0:1:: d 2001:db8:0:1::/64 line 13
2001:db8:0:1:ffff:ffff:ffff:ffff d 2001:db8:0:1::/64 line 13
2001:db8:0:2:: c 2001:db8::/32 line 10
2001:db9:: may not call
a01:203:: may not call
status 5

# All of one kind, up to its ends.
file all
device a
at 0.0.0.0/0
key k

$ tacd devices all 0.0.0.0 255.255.255.255 ::ffff:1.2.3.4 :: ffff:ffff:ffff:ffff:ffff:ffff:ffff:ffff
0.0.0.0 a 0.0.0.0/0 line 2
255.255.255.255 a 0.0.0.0/0 line 2
::ffff:1.2.3.4 a 0.0.0.0/0 line 2
:: may not call
ffff:ffff:ffff:ffff:ffff:ffff:ffff:ffff may not call
status 5

# All of IPv6, and half of IPv4.
file most
device a
at ::/0
at ::/1
at ::1
at 128.0.0.0/1
key k

$ tacd devices most 128.0.0.0 127.255.255.255 ::1 :: 7fff:: 8000:: ffff:ffff:ffff:ffff:ffff:ffff:ffff:ffff
128.0.0.0 a 128.0.0.0/1 line 5
127.255.255.255 may not call
::1 a ::1/128 line 4
:: a ::/1 line 3
7fff:: a ::/1 line 3
8000:: a ::/0 line 2
ffff:ffff:ffff:ffff:ffff:ffff:ffff:ffff a ::/0 line 2
status 5
