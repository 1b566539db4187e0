# The file of devices is judged after the command line, and before the policy's file, which isn't
# there.
$ tacd serve --port 1 --devices nowhere nobody
! tacd: nowhere: No such file or directory (os error 2)
status 4

folder folder

$ tacd serve --port 1 --devices folder nobody
! tacd: folder: it is a folder
status 4

$ tacd serve --port 1 --devices /proc/self/mem nobody
! tacd: /proc/self/mem: it could not be read
status 4

# Why it is refused is printed as by 'tacd devices', and never its text. Standard error names what
# tells more.
file key-of-7
device core
at 192.0.2.1
key tun␉dra

$ tacd serve --port 1 --devices key-of-7 nobody
! tacd: 'tacd devices --lint key-of-7' says more
devices fault line 3 1 BadLine
status 1

file without-a-key
device core
at 192.0.2.1

$ tacd serve --port 1 --devices without-a-key nobody
! tacd: 'tacd devices --lint without-a-key' says more
devices fault line 1 8 NoKey
status 1

$ tacd serve --port 1 --devices without-a-key nobody > /dev/full
! tacd: the output could not be written
status 4

open file open-to-all
device core
at 192.0.2.1
at 192.0.2.1/32
key tundra

$ tacd serve --port 1 --devices open-to-all nobody
! tacd: open-to-all: it has secrets, and any user of this machine can read it
! tacd: 'tacd devices --lint open-to-all' says more
devices fault line 3 6 Repeated
status 1

# The remarks on one that may stand are said with its name. None shows a key.
open file devices
device core
at 192.0.2.1
key tundra

$ tacd serve --port 1 --devices devices nobody
! tacd: devices: it has secrets, and any user of this machine can read it
! tacd: devices: line 3: a key of 6 characters
! tacd: nobody: No such file or directory (os error 2)
status 4

file doubtful
device core
at 192.0.2.1
key "wintry-tundra-ridge"
old-key 02050D480809
tls core.example
device edge
at 192.0.2.2
tls core.example

$ tacd serve --port 1 --devices doubtful nobody
! tacd: doubtful: line 3: a key in quotes, which are part of it
! tacd: doubtful: line 4: a key that looks like Cisco's type 7: it is taken as it stands
! tacd: doubtful: line 4: an old key beside the 'tls' of line 5
! tacd: doubtful: line 8: the common name of line 5
! tacd: nobody: No such file or directory (os error 2)
status 4

# Of many the first 64 are said, and how many more there are.
file many
device d1
at ::1
key k1
device d2
at ::2
key k2
device d3
at ::3
key k3
device d4
at ::4
key k4
device d5
at ::5
key k5
device d6
at ::6
key k6
device d7
at ::7
key k7
device d8
at ::8
key k8
device d9
at ::9
key k9
device d10
at ::a
key k10
device d11
at ::b
key k11
device d12
at ::c
key k12
device d13
at ::d
key k13
device d14
at ::e
key k14
device d15
at ::f
key k15
device d16
at ::10
key k16
device d17
at ::11
key k17
device d18
at ::12
key k18
device d19
at ::13
key k19
device d20
at ::14
key k20
device d21
at ::15
key k21
device d22
at ::16
key k22
device d23
at ::17
key k23
device d24
at ::18
key k24
device d25
at ::19
key k25
device d26
at ::1a
key k26
device d27
at ::1b
key k27
device d28
at ::1c
key k28
device d29
at ::1d
key k29
device d30
at ::1e
key k30
device d31
at ::1f
key k31
device d32
at ::20
key k32
device d33
at ::21
key k33
device d34
at ::22
key k34
device d35
at ::23
key k35
device d36
at ::24
key k36
device d37
at ::25
key k37
device d38
at ::26
key k38
device d39
at ::27
key k39
device d40
at ::28
key k40
device d41
at ::29
key k41
device d42
at ::2a
key k42
device d43
at ::2b
key k43
device d44
at ::2c
key k44
device d45
at ::2d
key k45
device d46
at ::2e
key k46
device d47
at ::2f
key k47
device d48
at ::30
key k48
device d49
at ::31
key k49
device d50
at ::32
key k50
device d51
at ::33
key k51
device d52
at ::34
key k52
device d53
at ::35
key k53
device d54
at ::36
key k54
device d55
at ::37
key k55
device d56
at ::38
key k56
device d57
at ::39
key k57
device d58
at ::3a
key k58
device d59
at ::3b
key k59
device d60
at ::3c
key k60
device d61
at ::3d
key k61
device d62
at ::3e
key k62
device d63
at ::3f
key k63
device d64
at ::40
key k64
device d65
at ::41
key k65
device d66
at ::42
key k66

$ tacd serve --port 1 --devices many nobody
! tacd: many: line 3: a key of 2 characters
! tacd: many: line 6: a key of 2 characters
! tacd: many: line 9: a key of 2 characters
! tacd: many: line 12: a key of 2 characters
! tacd: many: line 15: a key of 2 characters
! tacd: many: line 18: a key of 2 characters
! tacd: many: line 21: a key of 2 characters
! tacd: many: line 24: a key of 2 characters
! tacd: many: line 27: a key of 2 characters
! tacd: many: line 30: a key of 3 characters
! tacd: many: line 33: a key of 3 characters
! tacd: many: line 36: a key of 3 characters
! tacd: many: line 39: a key of 3 characters
! tacd: many: line 42: a key of 3 characters
! tacd: many: line 45: a key of 3 characters
! tacd: many: line 48: a key of 3 characters
! tacd: many: line 51: a key of 3 characters
! tacd: many: line 54: a key of 3 characters
! tacd: many: line 57: a key of 3 characters
! tacd: many: line 60: a key of 3 characters
! tacd: many: line 63: a key of 3 characters
! tacd: many: line 66: a key of 3 characters
! tacd: many: line 69: a key of 3 characters
! tacd: many: line 72: a key of 3 characters
! tacd: many: line 75: a key of 3 characters
! tacd: many: line 78: a key of 3 characters
! tacd: many: line 81: a key of 3 characters
! tacd: many: line 84: a key of 3 characters
! tacd: many: line 87: a key of 3 characters
! tacd: many: line 90: a key of 3 characters
! tacd: many: line 93: a key of 3 characters
! tacd: many: line 96: a key of 3 characters
! tacd: many: line 99: a key of 3 characters
! tacd: many: line 102: a key of 3 characters
! tacd: many: line 105: a key of 3 characters
! tacd: many: line 108: a key of 3 characters
! tacd: many: line 111: a key of 3 characters
! tacd: many: line 114: a key of 3 characters
! tacd: many: line 117: a key of 3 characters
! tacd: many: line 120: a key of 3 characters
! tacd: many: line 123: a key of 3 characters
! tacd: many: line 126: a key of 3 characters
! tacd: many: line 129: a key of 3 characters
! tacd: many: line 132: a key of 3 characters
! tacd: many: line 135: a key of 3 characters
! tacd: many: line 138: a key of 3 characters
! tacd: many: line 141: a key of 3 characters
! tacd: many: line 144: a key of 3 characters
! tacd: many: line 147: a key of 3 characters
! tacd: many: line 150: a key of 3 characters
! tacd: many: line 153: a key of 3 characters
! tacd: many: line 156: a key of 3 characters
! tacd: many: line 159: a key of 3 characters
! tacd: many: line 162: a key of 3 characters
! tacd: many: line 165: a key of 3 characters
! tacd: many: line 168: a key of 3 characters
! tacd: many: line 171: a key of 3 characters
! tacd: many: line 174: a key of 3 characters
! tacd: many: line 177: a key of 3 characters
! tacd: many: line 180: a key of 3 characters
! tacd: many: line 183: a key of 3 characters
! tacd: many: line 186: a key of 3 characters
! tacd: many: line 189: a key of 3 characters
! tacd: many: line 192: a key of 3 characters
! tacd: many: 2 more remarks; 'tacd devices many' tells all
! tacd: nobody: No such file or directory (os error 2)
status 4

# It may have no device, and no byte.
file empty

$ tacd serve --port 1 --devices empty nobody
! tacd: nobody: No such file or directory (os error 2)
status 4

$ tacd serve --port 1 --address nowhere --devices without-a-key nobody
! error: invalid value 'nowhere' for '--address <ADDR>': invalid IP address syntax
!
! For more information, try '--help'.
status 2

# Beside a key it is a wrong command line.
$ tacd serve --port 1 --devices devices --key k policy
! error: the argument '--devices <PATH>' cannot be used with '--key <K>'
!
! Usage: tacd serve <--port <P>|--proxy <PATH>> <--key <K>|--key-file <PATH>|--devices <PATH>> <FILE>
!
! For more information, try '--help'.
status 2

$ tacd serve --port 1 --key-file key --devices devices policy
! error: the argument '--key-file <PATH>' cannot be used with '--devices <PATH>'
!
! Usage: tacd serve <--port <P>|--proxy <PATH>> <--key <K>|--key-file <PATH>|--devices <PATH>> <FILE>
!
! For more information, try '--help'.
status 2
