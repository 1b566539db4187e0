file policy
group ops
permit show .*
user bob in ops

file cases
permit bob show version
deny bob reload

$ tacd test policy cases
ok

file policy
user bob
permit .*

$ tacd test policy cases
line 2: deny bob reload: permitted by user bob rule 1
status 1

file next
group ops
deny show run
permit show .*
user bob in ops
user eve in ops

file policy
group ops
permit show .*
user bob in ops

$ tacd test next policy
policy: fault line 1 BadCase
status 1

file policy
x␃

$ tacd test policy cases
policy: fault line 1 1 BadLine
! tacd: 'tacd lint policy' says more
status 1

file policy
group ops
permit show .*
user bob in ops

folder folder

$ tacd test policy folder
! tacd: folder: it is a folder
status 4

$ tacd test policy nowhere
! tacd: nowhere: No such file or directory (os error 2)
status 4
