file policy
group ops
permit show .*
user bob in ops

$ tacd why policy

file input
|# of the group|
bob show version
||
| bob reload␃|

$ tacd why policy < input
bob show version: permitted by group ops rule 1
bob reload: denied by default

file input
bob x
b/b x

$ tacd why policy < input
standard input: fault line 2 BadQuestion
status 1

file policy
x␃

file input
b/b␃

$ tacd why policy < input
policy: fault line 1 1 BadLine
! tacd: 'tacd lint policy' says more
status 1
