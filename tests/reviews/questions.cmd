# Single questions.
file policy
group ops
permit show .*
deny ping .*
user bob in ops
permit ping
user eve in ops
permit ()

$ tacd why policy bob show version
permitted by group ops rule 1

$ tacd why policy bob ping
permitted by user bob rule 1

$ tacd why policy bob ping x
denied by group ops rule 2

$ tacd why policy bob '' ping
denied by default

$ tacd why policy eve
permitted by user eve rule 1

$ tacd why policy eve ''
permitted by user eve rule 1

$ tacd why policy zed show
unknown user

$ tacd why policy ops show ''
unknown user

# What is no line of a user.
$ tacd why policy ''
fault BadQuestion
status 1

$ tacd why policy ' '
fault BadQuestion
status 1

$ tacd why policy b/b show
fault BadQuestion
status 1

$ tacd why policy '#' x
fault BadQuestion
status 1

# The policy is judged first.
file policy
permit x

$ tacd why policy ''
policy: fault line 1 4 NoSubject
! tacd: 'tacd lint policy' says more
status 1

# Many questions. Spaces at the end belong to the line.
file policy
group ops
permit show .*
deny ping .*
user bob in ops
permit ping
user eve in ops
permit ()

file input
|# the group's|
bob show version
|  eve  show version|
||
|   # spaces at the end belong to the line|
zed show
|eve |
bob ping␃

$ tacd why policy < input
bob show version: permitted by group ops rule 1
eve  show version: denied by default
zed show: unknown user
eve : permitted by user eve rule 1
bob ping: permitted by user bob rule 1

file input

$ tacd why policy < input

file input
bob ping
||
bob␉ping
b/b x

$ tacd why policy < input
standard input: fault line 3 BadQuestion
status 1

file input
bob ping␍

$ tacd why policy < input
standard input: fault line 1 BadQuestion
status 1
