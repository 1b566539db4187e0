file policy
user bob
||
show .*

$ tacd check policy
fault line 3 1 BadLine
! tacd: 'tacd lint policy' says more
status 1

$ tacd serve --port 1 --key k policy
fault line 3 1 BadLine
! tacd: 'tacd lint policy' says more
status 1

file policy
user bob
␀

$ tacd check policy
fault line 2 1 BadLine
! tacd: 'tacd lint policy' says more
status 1

$ tacd serve --port 1 --key k policy
fault line 2 1 BadLine
! tacd: 'tacd lint policy' says more
status 1

file policy
user bob␍

$ tacd check policy
fault line 1 1 BadLine
! tacd: 'tacd lint policy' says more
status 1

$ tacd serve --port 1 --key k policy
fault line 1 1 BadLine
! tacd: 'tacd lint policy' says more
status 1

file policy
user böb

$ tacd check policy
fault line 1 1 BadLine
! tacd: 'tacd lint policy' says more
status 1

$ tacd serve --port 1 --key k policy
fault line 1 1 BadLine
! tacd: 'tacd lint policy' says more
status 1

file policy
group g
login x

$ tacd check policy
fault line 2 1 BadLine
! tacd: 'tacd lint policy' says more
status 1

$ tacd serve --port 1 --key k policy
fault line 2 1 BadLine
! tacd: 'tacd lint policy' says more
status 1

file policy
user bob in a/b

$ tacd check policy
fault line 1 2 BadName
! tacd: 'tacd lint policy' says more
status 1

$ tacd serve --port 1 --key k policy
fault line 1 2 BadName
! tacd: 'tacd lint policy' says more
status 1

file policy
user bob
user eve
user bob

$ tacd check policy
fault line 3 3 Repeated
! tacd: 'tacd lint policy' says more
status 1

$ tacd serve --port 1 --key k policy
fault line 3 3 Repeated
! tacd: 'tacd lint policy' says more
status 1

file policy
permit x

$ tacd check policy
fault line 1 4 NoSubject
! tacd: 'tacd lint policy' says more
status 1

$ tacd serve --port 1 --key k policy
fault line 1 4 NoSubject
! tacd: 'tacd lint policy' says more
status 1

file policy
user b
permit *a

$ tacd check policy
fault line 2 5 BadPattern 5 NothingToRepeat at 0
! tacd: 'tacd lint policy' says more
status 1

$ tacd serve --port 1 --key k policy
fault line 2 5 BadPattern 5 NothingToRepeat at 0
! tacd: 'tacd lint policy' says more
status 1

file policy
user b
permit (((␃

$ tacd check policy
fault line 2 5 BadPattern 3 Unclosed at 2
! tacd: 'tacd lint policy' says more
status 1

$ tacd serve --port 1 --key k policy
fault line 2 5 BadPattern 3 Unclosed at 2
! tacd: 'tacd lint policy' says more
status 1

file policy
user b
priv 00015

$ tacd check policy
fault line 2 6 BadValue
! tacd: 'tacd lint policy' says more
status 1

$ tacd serve --port 1 --key k policy
fault line 2 6 BadValue
! tacd: 'tacd lint policy' says more
status 1

file policy
||
user bob in ops

$ tacd check policy
fault line 2 7 NoSuchParent
! tacd: 'tacd lint policy' says more
status 1

$ tacd serve --port 1 --key k policy
fault line 2 7 NoSuchParent
! tacd: 'tacd lint policy' says more
status 1

file policy
group a in b
group b in a

$ tacd check policy
fault line 1 8 Cycle
! tacd: 'tacd lint policy' says more
status 1

$ tacd serve --port 1 --key k policy
fault line 1 8 Cycle
! tacd: 'tacd lint policy' says more
status 1

file policy
group g1
group g2 in g1
group g3 in g2
group g4 in g3
group g5 in g4
group g6 in g5
group g7 in g6
group g8 in g7
group g9 in g8

$ tacd check policy
fault line 9 9 TooDeep
! tacd: 'tacd lint policy' says more
status 1

$ tacd serve --port 1 --key k policy
fault line 9 9 TooDeep
! tacd: 'tacd lint policy' says more
status 1

file policy
user b
group g
deny .*a..............

$ tacd check policy
fault TooManyStates group g
! tacd: 'tacd lint policy' says more
status 1

$ tacd serve --port 1 --key k policy
fault TooManyStates group g
! tacd: 'tacd lint policy' says more
status 1
