# With `--status` the status tells what a question is answered.
file policy
policy 3
group ops
service junos-exec local-user-name=ops
permit ()
permit show .*
user bob in ops
user eve in ops
refuse junos-exec
deny ()
user ann
login x

$ tacd why --status policy bob show version
permitted by group ops rule 2

$ tacd why --status policy bob reload
denied by default
status 5

$ tacd why --status policy eve
denied by user eve rule 1
status 5

$ tacd why --status policy bob
permitted by group ops rule 1

$ tacd why --status policy dora show version
unknown user
status 1

$ tacd why policy --status bob reload
denied by default
status 5

$ tacd given --status policy bob junos-exec
granted by group ops
group ops gives local-user-name=ops

$ tacd given --status policy eve junos-exec
refused by user eve
status 5

$ tacd given --status policy ann junos-exec
unsupported service
status 5

$ tacd given --status policy dora junos-exec
unknown user
status 1

$ tacd given --status policy bob shell
permitted by group ops rule 1

$ tacd given --status policy eve shell
denied by user eve rule 1
status 5

# Without it the status tells only whether the question was answered.
$ tacd why policy bob reload
denied by default

$ tacd why policy dora reload
unknown user

$ tacd given policy eve junos-exec
refused by user eve

$ tacd given policy dora shell
unknown user

# What is refused has the status that it has without it.
$ tacd why --status policy b/b show
fault BadQuestion
status 1

$ tacd given --status policy bob a/b/c
fault BadQuestion
status 1

$ tacd why --status nowhere bob
! tacd: nowhere: No such file or directory (os error 2)
status 4

$ tacd why --status policy bob show > /dev/full
! tacd: the output could not be written
status 4

# It tells of one question alone.
$ tacd why --status policy
! error: the following required arguments were not provided:
!   <USER>
!
! Usage: tacd why --status <FILE> <USER> [LINE]...
!
! For more information, try '--help'.
status 2

file wrong
user bob
show

$ tacd why --status wrong bob show
wrong: fault line 2 1 BadLine
! tacd: 'tacd lint wrong' says more
status 1
