file policy
group ops
permit show .*
user bob in ops

$ tacd why policy bob show version
permitted by group ops rule 1

$ tacd why policy bob show -x --help
permitted by group ops rule 1

file next
group ops
deny show run
permit show .*
user bob in ops
user eve in ops

$ tacd why next bob show run
denied by group ops rule 1

$ tacd why policy bob
denied by default

$ tacd why policy eve show
unknown user

$ tacd why policy b/b show
fault BadQuestion
status 1

$ tacd why policy 'bob show' run
fault BadQuestion
status 1

$ tacd why policy bob shöw
fault BadQuestion
status 1

folder folder

$ tacd why folder bob
! tacd: folder: it is a folder
status 4

$ tacd why nowhere bob
! tacd: nowhere: No such file or directory (os error 2)
status 4

file policy
x␃

$ tacd why policy bob
policy: fault line 1 1 BadLine
! tacd: 'tacd lint policy' says more
status 1
