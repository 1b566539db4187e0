file policy
user bob
x

file next
group ops
deny show run
permit show .*
user bob in ops
user eve in ops

$ tacd diff policy next
policy: fault line 2 1 BadLine
! tacd: 'tacd lint policy' says more
status 1

$ tacd diff --exit-code next policy
policy: fault line 2 1 BadLine
! tacd: 'tacd lint policy' says more
status 1

$ tacd diff --edits policy next
policy: fault line 2 1 BadLine
! tacd: 'tacd lint policy' says more
status 1

file policy
user b
group g
deny .*a..............

$ tacd diff policy next
policy: fault TooManyStates group g
! tacd: 'tacd lint policy' says more
status 1

$ tacd diff --exit-code next policy
policy: fault TooManyStates group g
! tacd: 'tacd lint policy' says more
status 1

$ tacd diff --edits policy next
policy: fault TooManyStates group g
! tacd: 'tacd lint policy' says more
status 1

folder folder

$ tacd diff nowhere folder
! tacd: nowhere: No such file or directory (os error 2)
status 4

file policy
group ops
permit show .*
user bob in ops

$ tacd diff policy nowhere
! tacd: nowhere: No such file or directory (os error 2)
status 4

$ tacd diff folder policy
! tacd: folder: it is a folder
status 4

$ tacd diff policy folder
! tacd: folder: it is a folder
status 4

$ tacd diff /proc/self/mem policy
! tacd: /proc/self/mem: it could not be read
status 4

$ tacd diff policy /proc/self/mem
! tacd: /proc/self/mem: it could not be read
status 4
