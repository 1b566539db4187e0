# A policy from standard input. It has no name: `-` is what is typed, and a file of that name is `./-`.
file policy
group ops
permit show .*
user bob in ops

$ tacd check - < policy
policy ok: 2 subjects, 1 rules
none

$ tacd lint - < policy
line 3 column 6: this user has no login: is that meant?
status 5

# Other commands have files alone.
$ tacd diff - policy
! tacd: -: No such file or directory (os error 2)
status 4

$ tacd check -
policy ok: 0 subjects, 0 rules
none

$ tacd check - < policy > /dev/full
! tacd: the output could not be written
status 4

file wrong
user bob
show .*

$ tacd check - < wrong
fault line 2 1 BadLine
! tacd: 'tacd lint -' says more
status 1

$ tacd lint - < wrong
line 2 column 1: refused: 1 BadLine: no line of a policy begins with this word
status 1

file -
user eve
login x
permit ()

$ tacd check ./- < wrong
policy ok: 1 subjects, 1 rules
none

$ tacd lint ./- < wrong

$ tacd lint - < policy
line 3 column 6: this user has no login: is that meant?
status 5
