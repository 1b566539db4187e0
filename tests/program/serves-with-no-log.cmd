# What is wrong with the file of `--log` is said after what is wrong with the policy, and before what
# is wrong with the port. A policy that nobody is in is served, and said to be so.
file policy

$ tacd serve --port 1 --key k --log /nowhere/log policy
! tacd: policy: the policy has no user: nobody can log in
! tacd: /nowhere/log: No such file or directory (os error 2)
status 4

$ tacd serve --port 1 --key k --log / policy
! tacd: policy: the policy has no user: nobody can log in
! tacd: /: Is a directory (os error 21)
status 4

$ tacd serve --port 1 --key k --log /dev/null policy
! tacd: policy: the policy has no user: nobody can log in
! tacd: /dev/null: it is no regular file
status 4

file policy
group ops
permit show .*

$ tacd serve --port 1 --key k --log / policy
! tacd: policy: the policy has no user: nobody can log in
! tacd: /: Is a directory (os error 21)
status 4

file policy
group ops
permit show .*
user bob in ops

$ tacd serve --port 1 --key k --log / policy
! tacd: /: Is a directory (os error 21)
status 4

file policy
x␃

$ tacd serve --port 1 --key k --log /nowhere/log policy
fault line 1 1 BadLine
! tacd: 'tacd lint policy' says more
status 1

$ tacd serve --port 1 --key k --log / policy
fault line 1 1 BadLine
! tacd: 'tacd lint policy' says more
status 1

$ tacd serve --port 1 --key k --log /dev/null policy
fault line 1 1 BadLine
! tacd: 'tacd lint policy' says more
status 1
