# Bytes that stand in no policy.
file policy
user bob␍
login x

$ tacd lint policy
line 1 column 9: a carriage return: lines end in LF alone
status 1

file policy
user bob
␉login x

$ tacd lint policy
line 2 column 1: a tab: words are set apart by spaces
status 1

file policy
﻿user bob
login x

$ tacd lint policy
line 1 column 1: a byte order mark: a policy is printable ASCII
status 1

file policy
user böb
login x

$ tacd lint policy
line 1 column 7: a byte that is no symbol: a policy is printable ASCII
status 1

# Lines that are refused.
file policy
user bob
|  LOGIN x|

$ tacd lint policy
line 2 column 3: a keyword in capitals: keywords are in lower case
status 1

file policy
user bob
permit show (a

$ tacd lint policy
line 2 column 13: refused: 5 BadPattern 3 Unclosed at 5
status 1

file policy
login x
user b/b
priv 16
||
Group g
login x
permit a+
show

$ tacd lint policy
line 1 column 1: refused: 4 NoSubject: no line 'group NAME' or 'user NAME' stands before it
line 2 column 7: refused: 2 BadName: this byte may not stand in a name: A-Z a-z 0-9 _ - . @ may
line 3 column 6: refused: 6 BadValue: a level is a number from 0 to 15
line 5 column 1: a keyword in capitals: keywords are in lower case
line 6 column 1: refused: 1 BadLine: this is a setting of users, and it stands under a group
line 8 column 1: refused: 1 BadLine: no line of a policy begins with this word
status 1

file policy
policy 2
user bob
permit show a}

$ tacd lint policy
line 3 column 14: refused: 5 BadPattern 11 BadRepeat at 6
status 1

file policy
||
policy 2
user bob
permit show a}

$ tacd lint policy
line 2 column 1: refused: 1 BadLine: only the first line of a text says a version, as 'policy 2' or 'policy 3' exactly
status 1

file policy
user bob
user bob

$ tacd lint policy
line 2 column 1: refused: 3 Repeated
status 1

# Each reason for which a line isn't one of a policy, and the places of names.
file policy
policy 4
key = k
accounting file = /var/log/acct
user = bob {
|  login = cleartext x|
|  member=ops|
}
group ops
permti show .*
show vlan
|  enable x |
priv
|priv 5 |
priv  5
priv 5 6
user bob in
user bob of ops
user bob in  ops
user bob in o/ps
user b/b in o/ps
|  policy 2|
realm ops {

$ tacd lint policy
line 1 column 1: refused: 1 BadLine: only the first line of a text says a version, as 'policy 2' or 'policy 3' exactly
line 2 column 1: refused: 1 BadLine: this is a line of another program's file, such as tac_plus's
line 3 column 1: refused: 1 BadLine: this is a line of another program's file, such as tac_plus's
line 4 column 1: refused: 1 BadLine: this is a line of another program's file, such as tac_plus's
line 6 column 3: refused: 1 BadLine: this is a line of another program's file, such as tac_plus's
line 7 column 1: refused: 1 BadLine: this is a line of another program's file, such as tac_plus's
line 9 column 1: refused: 1 BadLine: no line of a policy begins with this word: is 'permit' meant?
line 10 column 1: refused: 1 BadLine: no line of a policy begins with this word
line 11 column 3: refused: 1 BadLine: this is a setting of users, and it stands under a group
line 12 column 1: refused: 1 BadLine: a value is missing at its end
line 13 column 7: refused: 1 BadLine: it ends with a space
line 14 column 5: refused: 1 BadLine: two spaces in a row, where words are set apart by one
line 15 column 1: refused: 1 BadLine: after 'priv' one number may follow, and nothing else
line 16 column 1: refused: 1 BadLine: a value is missing at its end
line 17 column 1: refused: 1 BadLine: after the name nothing may follow but 'in PARENT'
line 18 column 12: refused: 1 BadLine: two spaces in a row, where words are set apart by one
line 19 column 14: refused: 2 BadName: this byte may not stand in a name: A-Z a-z 0-9 _ - . @ may
line 20 column 7: refused: 2 BadName: this byte may not stand in a name: A-Z a-z 0-9 _ - . @ may
line 21 column 3: refused: 1 BadLine: only the first line of a text says a version, as 'policy 2' or 'policy 3' exactly
line 22 column 1: refused: 1 BadLine: this is a line of another program's file, such as tac_plus's
status 1

# The known word that is nearest to this one. `drnv` is as near to `deny`, which comes later.
file policy
grop x

$ tacd lint policy
line 1 column 1: refused: 1 BadLine: no line of a policy begins with this word: is 'group' meant?
status 1

file policy
usre x

$ tacd lint policy
line 1 column 1: refused: 1 BadLine: no line of a policy begins with this word: is 'user' meant?
status 1

file policy
enab x

$ tacd lint policy
line 1 column 1: refused: 1 BadLine: no line of a policy begins with this word: is 'enable' meant?
status 1

file policy
Polcy x

$ tacd lint policy
line 1 column 1: refused: 1 BadLine: no line of a policy begins with this word: is 'policy' meant?
status 1

file policy
permitte x

$ tacd lint policy
line 1 column 1: refused: 1 BadLine: no line of a policy begins with this word: is 'permit' meant?
status 1

file policy
drnv x

$ tacd lint policy
line 1 column 1: refused: 1 BadLine: no line of a policy begins with this word: is 'priv' meant?
status 1

file policy
dny x

$ tacd lint policy
line 1 column 1: refused: 1 BadLine: no line of a policy begins with this word: is 'deny' meant?
status 1

file policy
login_hash x

$ tacd lint policy
line 1 column 1: refused: 1 BadLine: no line of a policy begins with this word: is 'login-hash' meant?
status 1

file policy
enablehash x

$ tacd lint policy
line 1 column 1: refused: 1 BadLine: no line of a policy begins with this word: is 'enable-hash' meant?
status 1

file policy
end x

$ tacd lint policy
line 1 column 1: refused: 1 BadLine: no line of a policy begins with this word
status 1

file policy
permitted x

$ tacd lint policy
line 1 column 1: refused: 1 BadLine: no line of a policy begins with this word
status 1

file policy
show x

$ tacd lint policy
line 1 column 1: refused: 1 BadLine: no line of a policy begins with this word
status 1

# Chains that don't end.
file policy
user bob in ops
user eve in net
group net in west

$ tacd lint policy
line 1 column 13: the policy has no group ops
line 3 column 14: the policy has no group west
status 1

file policy
group c in a
group a in b
group b in a
user u in c

$ tacd lint policy
line 1 column 1: refused: 8 Cycle
line 2 column 12: the chain of parents comes back to this group
line 3 column 12: the chain of parents comes back to this group
status 1

# The rules along the chain of the first subject that is too large: where they have a dot after a
# search, but for that of the search at their end.
file policy
policy 2
group far
permit .*x.*y
group g in h
permit show .*vlan.*brief
|  deny show .*vlan.*( <cr>)?|
permit [.*].+x.
permit (.*a.{2}|b)c.+
permit show .*vlan.*
permit show .*vlan( .*)?
permit show \..*[.*]vlan
user u in g
deny .*b.*c
group h
deny .*a.{14}

$ tacd lint policy
line 4 column 1: refused: TooManyStates: the rules along this chain have over 16384 states
line 5 column 19: a dot after a '.*' may double the states: '.*(vlan|arp).*' takes fewer than two rules
line 6 column 19: a dot after a '.*' may double the states: '.*(vlan|arp).*' takes fewer than two rules
line 7 column 15: a dot after a '.*' may double the states: '.*(vlan|arp).*' takes fewer than two rules
line 8 column 12: a dot after a '.*' may double the states: '.*(vlan|arp).*' takes fewer than two rules
line 15 column 9: a dot after a '.*' may double the states: '.*(vlan|arp).*' takes fewer than two rules
status 1

# Lines of hashes that are refused.
file policy
policy 2
user bob
login-hash x
|  enable-hash|

$ tacd lint policy
line 3 column 1: refused: 1 BadLine: such lines are of version 3: is 'policy 3' meant as the first line?
line 4 column 3: refused: 1 BadLine: such lines are of version 3: is 'policy 3' meant as the first line?
status 1

file policy
policy 3
group g
login-hash x
user bob
login-hash x
Login-Hash x
login-hash

$ tacd lint policy
line 3 column 1: refused: 1 BadLine: this is a setting of users, and it stands under a group
line 5 column 12: refused: 6 BadValue: only a hash that 'openssl passwd -6' makes is taken, without quotes
line 6 column 1: a keyword in capitals: keywords are in lower case
line 7 column 1: refused: 1 BadLine: a value is missing at its end
status 1
