file policy
group ops
deny a
deny a
deny a
deny a
deny a
deny a
deny a
deny a
deny a
deny a
deny a
deny a
deny a
deny a
deny a
deny a
deny a
deny a
deny a
deny a
deny a
deny a
deny a
deny a
deny a
deny a
deny a
deny a
deny a
deny a
deny a
deny a
deny a
deny a
deny a
deny a
deny a
deny a
deny a
deny a
deny a
deny a
deny a
deny a
deny a
deny a
deny a
deny a
deny a
deny a
deny a
deny a
deny a
deny a
deny a
deny a
deny a
deny a
deny a
deny a
deny a
deny a
deny a
deny a
deny a
deny a
user bob in ops

file next
group ops
deny show run
permit show .*
user bob in ops
user eve in ops

$ tacd diff --edits policy next
begin
drop group ops 66
drop group ops 65
drop group ops 64
drop group ops 63
drop group ops 62
drop group ops 61
drop group ops 60
drop group ops 59
drop group ops 58
drop group ops 57
drop group ops 56
drop group ops 55
drop group ops 54
drop group ops 53
drop group ops 52
drop group ops 51
drop group ops 50
drop group ops 49
drop group ops 48
drop group ops 47
drop group ops 46
drop group ops 45
drop group ops 44
drop group ops 43
drop group ops 42
drop group ops 41
drop group ops 40
drop group ops 39
drop group ops 38
drop group ops 37
drop group ops 36
drop group ops 35
drop group ops 34
drop group ops 33
drop group ops 32
drop group ops 31
drop group ops 30
drop group ops 29
drop group ops 28
drop group ops 27
drop group ops 26
drop group ops 25
drop group ops 24
drop group ops 23
drop group ops 22
drop group ops 21
drop group ops 20
drop group ops 19
drop group ops 18
drop group ops 17
drop group ops 16
drop group ops 15
drop group ops 14
drop group ops 13
drop group ops 12
drop group ops 11
drop group ops 10
drop group ops 9
drop group ops 8
drop group ops 7
drop group ops 6
drop group ops 5
drop group ops 4
drop group ops 3
commit
begin
drop group ops 2
drop group ops 1
add user eve in ops
insert group ops 1 deny show run
insert group ops 2 permit show .*
commit
! tacd: 2 batches; between two of them the policy is neither OLD nor NEW
