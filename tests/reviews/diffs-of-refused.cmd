# Texts that are refused, as the old policy, which is judged first, and as the new one.
file right
group ops
permit show .*
group net in ops
permit ping .*
user bob in ops
user eve in net
user ann in ops
user zed in net
user gone in net
user idle

file bare
x␃

file wrong
user bob
||
show

file text
user bob
||
show .*

$ tacd diff text right
text: fault line 3 1 BadLine
! tacd: 'tacd lint text' says more
status 1

$ tacd diff text wrong
text: fault line 3 1 BadLine
! tacd: 'tacd lint text' says more
status 1

$ tacd diff right text
text: fault line 3 1 BadLine
! tacd: 'tacd lint text' says more
status 1

$ tacd diff bare text
bare: fault line 1 1 BadLine
! tacd: 'tacd lint bare' says more
status 1

file text
user bob
␀

$ tacd diff text right
text: fault line 2 1 BadLine
! tacd: 'tacd lint text' says more
status 1

$ tacd diff text wrong
text: fault line 2 1 BadLine
! tacd: 'tacd lint text' says more
status 1

$ tacd diff right text
text: fault line 2 1 BadLine
! tacd: 'tacd lint text' says more
status 1

$ tacd diff bare text
bare: fault line 1 1 BadLine
! tacd: 'tacd lint bare' says more
status 1

file text
user bob␍

$ tacd diff text right
text: fault line 1 1 BadLine
! tacd: 'tacd lint text' says more
status 1

$ tacd diff text wrong
text: fault line 1 1 BadLine
! tacd: 'tacd lint text' says more
status 1

$ tacd diff right text
text: fault line 1 1 BadLine
! tacd: 'tacd lint text' says more
status 1

$ tacd diff bare text
bare: fault line 1 1 BadLine
! tacd: 'tacd lint bare' says more
status 1

file text
user böb

$ tacd diff text right
text: fault line 1 1 BadLine
! tacd: 'tacd lint text' says more
status 1

$ tacd diff text wrong
text: fault line 1 1 BadLine
! tacd: 'tacd lint text' says more
status 1

$ tacd diff right text
text: fault line 1 1 BadLine
! tacd: 'tacd lint text' says more
status 1

$ tacd diff bare text
bare: fault line 1 1 BadLine
! tacd: 'tacd lint bare' says more
status 1

file text
group g
login x

$ tacd diff text right
text: fault line 2 1 BadLine
! tacd: 'tacd lint text' says more
status 1

$ tacd diff text wrong
text: fault line 2 1 BadLine
! tacd: 'tacd lint text' says more
status 1

$ tacd diff right text
text: fault line 2 1 BadLine
! tacd: 'tacd lint text' says more
status 1

$ tacd diff bare text
bare: fault line 1 1 BadLine
! tacd: 'tacd lint bare' says more
status 1

file text
user bob in a/b

$ tacd diff text right
text: fault line 1 2 BadName
! tacd: 'tacd lint text' says more
status 1

$ tacd diff text wrong
text: fault line 1 2 BadName
! tacd: 'tacd lint text' says more
status 1

$ tacd diff right text
text: fault line 1 2 BadName
! tacd: 'tacd lint text' says more
status 1

$ tacd diff bare text
bare: fault line 1 1 BadLine
! tacd: 'tacd lint bare' says more
status 1

file text
user b
user b

$ tacd diff text right
text: fault line 2 3 Repeated
! tacd: 'tacd lint text' says more
status 1

$ tacd diff text wrong
text: fault line 2 3 Repeated
! tacd: 'tacd lint text' says more
status 1

$ tacd diff right text
text: fault line 2 3 Repeated
! tacd: 'tacd lint text' says more
status 1

$ tacd diff bare text
bare: fault line 1 1 BadLine
! tacd: 'tacd lint bare' says more
status 1

file text
permit x

$ tacd diff text right
text: fault line 1 4 NoSubject
! tacd: 'tacd lint text' says more
status 1

$ tacd diff text wrong
text: fault line 1 4 NoSubject
! tacd: 'tacd lint text' says more
status 1

$ tacd diff right text
text: fault line 1 4 NoSubject
! tacd: 'tacd lint text' says more
status 1

$ tacd diff bare text
bare: fault line 1 1 BadLine
! tacd: 'tacd lint bare' says more
status 1

file text
user b
permit (((␃

$ tacd diff text right
text: fault line 2 5 BadPattern 3 Unclosed at 2
! tacd: 'tacd lint text' says more
status 1

$ tacd diff text wrong
text: fault line 2 5 BadPattern 3 Unclosed at 2
! tacd: 'tacd lint text' says more
status 1

$ tacd diff right text
text: fault line 2 5 BadPattern 3 Unclosed at 2
! tacd: 'tacd lint text' says more
status 1

$ tacd diff bare text
bare: fault line 1 1 BadLine
! tacd: 'tacd lint bare' says more
status 1

file text
user b
priv 00015

$ tacd diff text right
text: fault line 2 6 BadValue
! tacd: 'tacd lint text' says more
status 1

$ tacd diff text wrong
text: fault line 2 6 BadValue
! tacd: 'tacd lint text' says more
status 1

$ tacd diff right text
text: fault line 2 6 BadValue
! tacd: 'tacd lint text' says more
status 1

$ tacd diff bare text
bare: fault line 1 1 BadLine
! tacd: 'tacd lint bare' says more
status 1

file text
user b in g

$ tacd diff text right
text: fault line 1 7 NoSuchParent
! tacd: 'tacd lint text' says more
status 1

$ tacd diff text wrong
text: fault line 1 7 NoSuchParent
! tacd: 'tacd lint text' says more
status 1

$ tacd diff right text
text: fault line 1 7 NoSuchParent
! tacd: 'tacd lint text' says more
status 1

$ tacd diff bare text
bare: fault line 1 1 BadLine
! tacd: 'tacd lint bare' says more
status 1

file text
group a in a

$ tacd diff text right
text: fault line 1 8 Cycle
! tacd: 'tacd lint text' says more
status 1

$ tacd diff text wrong
text: fault line 1 8 Cycle
! tacd: 'tacd lint text' says more
status 1

$ tacd diff right text
text: fault line 1 8 Cycle
! tacd: 'tacd lint text' says more
status 1

$ tacd diff bare text
bare: fault line 1 1 BadLine
! tacd: 'tacd lint bare' says more
status 1

file text
user b
group g
deny .*a..............

$ tacd diff text right
text: fault TooManyStates group g
! tacd: 'tacd lint text' says more
status 1

$ tacd diff text wrong
text: fault TooManyStates group g
! tacd: 'tacd lint text' says more
status 1

$ tacd diff right text
text: fault TooManyStates group g
! tacd: 'tacd lint text' says more
status 1

$ tacd diff bare text
bare: fault line 1 1 BadLine
! tacd: 'tacd lint bare' says more
status 1
