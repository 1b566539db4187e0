file policy
group ops
permit show .*
user bob in ops

$ tacd lint policy
line 3 column 6: this user has no login: is that meant?
status 5

file policy
user bob
login x
permit ()

$ tacd lint policy

file policy
user b/b
x

$ tacd lint policy
line 1 column 7: refused: 2 BadName: this byte may not stand in a name: A-Z a-z 0-9 _ - . @ may
line 2 column 1: refused: 1 BadLine: no line of a policy begins with this word
status 1

file policy
user b
group g
deny .*a..............

$ tacd lint policy
line 2 column 1: refused: TooManyStates: the rules along this chain have over 16384 states
line 3 column 9: a dot after a '.*' may double the states: '.*(vlan|arp).*' takes fewer than two rules
status 1

$ tacd lint nowhere
! tacd: nowhere: No such file or directory (os error 2)
status 4

folder folder

$ tacd lint folder
! tacd: folder: it is a folder
status 4

$ tacd lint /proc/self/mem
! tacd: /proc/self/mem: it could not be read
status 4

file policy
policy 3
user bob
login $6$saltsalt$temoAzB1LMUGfs39YsEHhlSSY8ud5tjHcrE1ZINzi8TsesBqqjufdtA7fVhnojTHlBhKZVF0Q9wxWAcE707Cb0
enable-hash $6$rounds=20001$saltsalt$temoAzB1LMUGfs39YsEHhlSSY8ud5tjHcrE1ZINzi8TsesBqqjufdtA7fVhnojTHlBhKZVF0Q9wxWAcE707Cb0
permit ()
user eve
login-hash $6$rounds=20000$saltsalt$temoAzB1LMUGfs39YsEHhlSSY8ud5tjHcrE1ZINzi8TsesBqqjufdtA7fVhnojTHlBhKZVF0Q9wxWAcE707Cb0
permit ()

$ tacd lint policy
line 3 column 7: this text itself is the password: is a hash meant, as after 'login-hash'?
line 4 column 13: over 20000 rounds: each login takes a processor for 8 milliseconds or more
status 5

$ tacd check policy
policy ok: 2 subjects, 2 rules
none

file policy
policy 2
user bob
login-hash $6$saltsalt$temoAzB1LMUGfs39YsEHhlSSY8ud5tjHcrE1ZINzi8TsesBqqjufdtA7fVhnojTHlBhKZVF0Q9wxWAcE707Cb0

$ tacd lint policy
line 3 column 1: refused: 1 BadLine: such lines are of version 3: is 'policy 3' meant as the first line?
status 1

file policy
policy 3
group ops
login-hash $6$saltsalt$temoAzB1LMUGfs39YsEHhlSSY8ud5tjHcrE1ZINzi8TsesBqqjufdtA7fVhnojTHlBhKZVF0Q9wxWAcE707Cb0
user bob
login-hash $6$saltsalt$temo
loginhash $6$saltsalt$temoAzB1LMUGfs39YsEHhlSSY8ud5tjHcrE1ZINzi8TsesBqqjufdtA7fVhnojTHlBhKZVF0Q9wxWAcE707Cb0

$ tacd lint policy
line 3 column 1: refused: 1 BadLine: this is a setting of users, and it stands under a group
line 5 column 12: refused: 6 BadValue: only a hash that 'openssl passwd -6' makes is taken, without quotes
line 6 column 1: refused: 1 BadLine: no line of a policy begins with this word: is 'login-hash' meant?
status 1

# What is asked of lines about services.
file policy
policy 3
group netops
service exec
service exec/x a=b
service shell shell:roles="network-admin"
|  service shell shell:roles*"network-admin"|
service shell timeout=5
service shell a*b=c
service junos-exec local-user-name=ops
|service x a=b |
user bob in netops
login x
refuse exec
permit ()

$ tacd lint policy
line 3 column 9: tac_plus calls the shell so: is 'shell' meant?
line 5 column 15: devices that don't know it refuse the shell: is '*' meant in place of '='?
line 10 column 14: it ends with a space: is that meant?
line 13 column 8: tac_plus calls the shell so: is 'shell' meant?
status 5

# Of the names of RFC 8907, section 8.2 those of a request alone are asked about.
file policy
policy 3
user bob
login x
service shell service=a
service shell protocol=a
service shell cmd=a
service shell cmd-arg=a
service shell acl=a
service shell inacl=a
service shell outacl=a
service shell addr=a
service shell addr-pool=a
service shell timeout=a
service shell idletime=a
service shell autocmd=a
service shell noescape=a
service shell nohangup=a
permit ()

$ tacd lint policy
line 4 column 15: devices that don't know it refuse the shell: is '*' meant in place of '='?
line 5 column 15: devices that don't know it refuse the shell: is '*' meant in place of '='?
line 6 column 15: devices that don't know it refuse the shell: is '*' meant in place of '='?
line 7 column 15: devices that don't know it refuse the shell: is '*' meant in place of '='?
status 5

file policy
policy 2
group netops
service shell priv=15
|  refuse x|
service
service = exec {

$ tacd lint policy
line 3 column 1: refused: 1 BadLine: such lines are of version 3: is 'policy 3' meant as the first line?
line 4 column 3: refused: 1 BadLine: such lines are of version 3: is 'policy 3' meant as the first line?
line 5 column 1: refused: 1 BadLine: such lines are of version 3: is 'policy 3' meant as the first line?
line 6 column 1: refused: 1 BadLine: this is a line of another program's file, such as tac_plus's
status 1

file policy
policy 3
group netops
service
refuse x y
|refuse x |
refuse x  y
service x:y a=b
service shell/x
|  service x a|
refuse shell
servise x
refuze x
Service x
user bob

$ tacd lint policy
line 3 column 1: refused: 1 BadLine: a value is missing at its end
line 4 column 1: refused: 1 BadLine: after 'refuse' one service may follow, and nothing else
line 5 column 9: refused: 1 BadLine: it ends with a space
line 6 column 9: refused: 1 BadLine: two spaces in a row, where words are set apart by one
line 7 column 10: refused: 2 BadName: this byte may not stand in a name: A-Z a-z 0-9 _ - . @ may
line 8 column 9: refused: 2 BadName: a service is NAME or NAME/PROTOCOL, and 'shell' has no protocol
line 9 column 13: refused: 6 BadValue: an attribute is NAME=VALUE or NAME*VALUE, of at most 255 symbols
line 10 column 8: refused: 6 BadValue: a shell is refused by a rule, as by 'deny ()'
line 11 column 1: refused: 1 BadLine: no line of a policy begins with this word: is 'service' meant?
line 12 column 1: refused: 1 BadLine: no line of a policy begins with this word: is 'refuse' meant?
line 13 column 1: a keyword in capitals: keywords are in lower case
status 1

file policy
policy 3
user bob
service x
service x a=b

$ tacd lint policy
line 4 column 1: refused: 3 Repeated
status 1

# A quote that nothing ends.
file policy
policy 3
user bob
login x
service a/b c="d" e
service a/b c="d

$ tacd lint policy
line 5 column 15: an odd number of '"': is one more meant, or one less?
status 5

# A shell that nobody may start: of a group, and of a user.
file policy
policy 3
group ops
service shell shell:roles*"network-admin"
service junos-exec local-user-name=ops
permit show .*
user bob in ops
login x
service shell timeout=5
user eve in ops
login x

$ tacd lint policy
line 3 column 9: no shell starts here: none of its users is permitted the empty line, as by 'permit ()'
line 8 column 9: no shell starts here: none of its users is permitted the empty line, as by 'permit ()'
status 5

# One user of the group may start one.
file policy
policy 3
group ops
service shell timeout=5
permit show .*
user bob in ops
login x
permit ()
user eve in ops
login x
|  service shell timeout=5|

$ tacd lint policy
line 10 column 11: no shell starts here: none of its users is permitted the empty line, as by 'permit ()'
status 5

# A rule denies it, before one that permits it.
file policy
policy 3
group all
service shell idletime=5
group ops in all
deny ()
permit .*
user bob in ops
login x

$ tacd lint policy
line 3 column 9: no shell starts here: none of its users is permitted the empty line, as by 'permit ()'
status 5

# A service of a shell that gives nothing, one that no shell is asked for, and a group without users.
file policy
policy 3
group ops
service junos-exec timeout=5
permit show .*
user bob in ops
login x
service shell
group core
service shell timeout=5
group edge in core

$ tacd lint policy
line 10 column 7: nobody is in this group: is that meant?
status 5

# Another mistake in the same line.
file policy
policy 3
user bob
login x
service shell shell:roles="a

$ tacd lint policy
line 4 column 9: no shell starts here: none of its users is permitted the empty line, as by 'permit ()'
line 4 column 15: devices that don't know it refuse the shell: is '*' meant in place of '='?
line 4 column 27: an odd number of '"': is one more meant, or one less?
status 5

# Each attribute of the group is asked about; users of groups within it count too.
file policy
policy 3
group ops
service shell timeout=5
service shell idletime=5
permit show .*
user bob in ops
login x
group staff in ops
user eve in staff
login x

$ tacd lint policy
line 3 column 9: no shell starts here: none of its users is permitted the empty line, as by 'permit ()'
line 4 column 9: no shell starts here: none of its users is permitted the empty line, as by 'permit ()'
status 5

file policy
policy 3
group ops
service shell timeout=5
permit show .*
group staff in ops
permit ()
user eve in staff
login x

$ tacd lint policy
