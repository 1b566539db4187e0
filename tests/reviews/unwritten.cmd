file policy
group ops
permit show .*
user bob in ops

$ tacd diff policy policy > /dev/full
! tacd: the output could not be written
status 4

file next
group ops
deny show run
permit show .*
user bob in ops
user eve in ops

$ tacd diff --exit-code policy next > /dev/full
! tacd: the output could not be written
status 4

$ tacd why policy bob > /dev/full
! tacd: the output could not be written
status 4

file cases
permit bob show version
deny bob reload

$ tacd test policy cases > /dev/full
! tacd: the output could not be written
status 4

$ tacd test policy policy > /dev/full
! tacd: the output could not be written
status 4

$ tacd lint policy > /dev/full
! tacd: the output could not be written
status 4

# Nothing is to be written here.
$ tacd why policy > /dev/full
