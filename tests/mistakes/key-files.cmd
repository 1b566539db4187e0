# A key's file is judged after the command line, and before the policy's file, which isn't there.
$ tacd serve --port 1 --key-file nowhere nobody
! tacd: nowhere: No such file or directory (os error 2)
status 4

folder folder

$ tacd serve --port 1 --key-file folder nobody
! tacd: folder: it is a folder
status 4

$ tacd serve --port 1 --key-file /proc/self/mem nobody
! tacd: /proc/self/mem: it could not be read
status 4

file bad-key
tun␉dra

$ tacd serve --port 1 --key-file bad-key nobody
! tacd: bad-key: its first line is not 1 to 128 printable ASCII characters
! tacd: bad-key: line 1 column 4: a tab: is a space meant?
status 2

# Which byte keeps it from being a key is said, and never the key.
file bad-key
wintry-tundra-ridge-41␍

$ tacd serve --port 1 --key-file bad-key nobody
! tacd: bad-key: its first line is not 1 to 128 printable ASCII characters
! tacd: bad-key: line 1 column 23: a carriage return: lines end in LF alone
status 2

file bad-key
﻿wintry-tundra-ridge-41

$ tacd serve --port 1 --key-file bad-key nobody
! tacd: bad-key: its first line is not 1 to 128 printable ASCII characters
! tacd: bad-key: line 1 column 1: a byte order mark: save the file without one
status 2

file bad-key
schlüssel

$ tacd serve --port 1 --key-file bad-key nobody
! tacd: bad-key: its first line is not 1 to 128 printable ASCII characters
! tacd: bad-key: line 1 column 5: a byte that isn't printable ASCII
status 2

file bad-key
kkkkkkkkkkkkkkkkkkkkkkkkkkkkkkkkkkkkkkkkkkkkkkkkkkkkkkkkkkkkkkkkkkkkkkkkkkkkkkkkkkkkkkkkkkkkkkkkkkkkkkkkkkkkkkkkkkkkkkkkkkkkkkkkk

$ tacd serve --port 1 --key-file bad-key nobody
! tacd: bad-key: its first line is not 1 to 128 printable ASCII characters
status 2

file no-key

$ tacd serve --port 1 --key-file no-key nobody
! tacd: no-key: its first line is not 1 to 128 printable ASCII characters
status 2

file key
|k |
the second line

$ tacd serve --port 1 --key-file key nobody
! tacd: key: a key with a blank at an end, which is part of it
! tacd: nobody: No such file or directory (os error 2)
status 4

# What is doubtful is said of the first line, and never by the key.
file key
wintry-tundra-ridge-41
"the second line"

$ tacd serve --port 1 --key-file key nobody
! tacd: nobody: No such file or directory (os error 2)
status 4

file key
'wintry-tundra-ridge-41'

$ tacd serve --port 1 --key-file key nobody
! tacd: key: a key in quotes, which are part of it
! tacd: nobody: No such file or directory (os error 2)
status 4

file key
wintry-tundra-ridge-41 # of the campus

$ tacd serve --port 1 --key-file key nobody
! tacd: key: a key with '#' after a blank: no comment, but part of it
! tacd: nobody: No such file or directory (os error 2)
status 4

file key
7 02050D480809

$ tacd serve --port 1 --key-file key nobody
! tacd: key: a key that looks like Cisco's type 7: it is taken as it stands
! tacd: nobody: No such file or directory (os error 2)
status 4

file key
kkkkkkkkkkkkkkkk␃

$ tacd serve --port 1 --key-file key nobody
! tacd: key: a key of one character, alone or repeated
! tacd: nobody: No such file or directory (os error 2)
status 4

file other-key
key = tundra

$ tacd serve --port 1 --key-file other-key nobody
! tacd: other-key: a key that begins with 'key =' or '= ', which is part of it
! tacd: nobody: No such file or directory (os error 2)
status 4

open file open-key
key=tundra␃

$ tacd serve --port 1 --key-file open-key nobody
! tacd: open-key: it has secrets, and any user of this machine can read it
! tacd: open-key: a key that begins with 'key =' or '= ', which is part of it
! tacd: nobody: No such file or directory (os error 2)
status 4

$ tacd serve --port 1 --key k --key-file key policy
! error: the argument '--key <K>' cannot be used with '--key-file <PATH>'
!
! Usage: tacd serve <--port <P>|--proxy <PATH>> <--key <K>|--key-file <PATH>|--devices <PATH>> <FILE>
!
! For more information, try '--help'.
status 2
