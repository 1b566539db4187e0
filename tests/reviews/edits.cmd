file policy
group ops
permit show .*
user bob in ops

$ tacd diff --edits policy policy

$ tacd diff --edits --exit-code policy policy

file next
group ops
deny show run
permit show .*
user bob in ops
user eve in ops

$ tacd diff --edits policy next
begin
add user eve in ops
insert group ops 1 deny show run
commit

$ tacd diff next policy --edits
begin
drop group ops 1
remove user eve
commit

$ tacd diff --exit-code policy next --edits
begin
add user eve in ops
insert group ops 1 deny show run
commit
status 5

# Hashes are printed whole, or they couldn't be loaded.
file policy
policy 2
user bob
login x
enable x
user eve
login x

file next
policy 3
user bob
login-hash $6$saltsalt$temoAzB1LMUGfs39YsEHhlSSY8ud5tjHcrE1ZINzi8TsesBqqjufdtA7fVhnojTHlBhKZVF0Q9wxWAcE707Cb0
enable-hash $6$rounds=1000$a.b/c$DTK7hHK5OlG9lAtBisZZCIY54BYeEOnsDdkgHm/Wcq/9YSzDqMBrwZrornT.TWCVBpL3I8Y8Cl1mhQ3EWAHpl.
user eve
login-hash $6$rounds=1000$a.b/c$DTK7hHK5OlG9lAtBisZZCIY54BYeEOnsDdkgHm/Wcq/9YSzDqMBrwZrornT.TWCVBpL3I8Y8Cl1mhQ3EWAHpl.

$ tacd diff --edits policy next
begin
login-hash bob $6$saltsalt$temoAzB1LMUGfs39YsEHhlSSY8ud5tjHcrE1ZINzi8TsesBqqjufdtA7fVhnojTHlBhKZVF0Q9wxWAcE707Cb0
enable-hash bob $6$rounds=1000$a.b/c$DTK7hHK5OlG9lAtBisZZCIY54BYeEOnsDdkgHm/Wcq/9YSzDqMBrwZrornT.TWCVBpL3I8Y8Cl1mhQ3EWAHpl.
login-hash eve $6$rounds=1000$a.b/c$DTK7hHK5OlG9lAtBisZZCIY54BYeEOnsDdkgHm/Wcq/9YSzDqMBrwZrornT.TWCVBpL3I8Y8Cl1mhQ3EWAHpl.
commit

$ tacd diff --edits next policy
begin
login bob x
enable bob x
login eve x
commit

file other
policy 3
user bob
login-hash $6$rounds=1000$a.b/c$DTK7hHK5OlG9lAtBisZZCIY54BYeEOnsDdkgHm/Wcq/9YSzDqMBrwZrornT.TWCVBpL3I8Y8Cl1mhQ3EWAHpl.
user eve
login-hash $6$rounds=1000$a.b/c$DTK7hHK5OlG9lAtBisZZCIY54BYeEOnsDdkgHm/Wcq/9YSzDqMBrwZrornT.TWCVBpL3I8Y8Cl1mhQ3EWAHpl.

$ tacd diff --edits next other
begin
login-hash bob $6$rounds=1000$a.b/c$DTK7hHK5OlG9lAtBisZZCIY54BYeEOnsDdkgHm/Wcq/9YSzDqMBrwZrornT.TWCVBpL3I8Y8Cl1mhQ3EWAHpl.
clear enable bob
commit

# Secrets decide nothing, and are told last.
$ tacd diff policy next
user bob login changed
user bob enable changed
user eve login changed

# Of lines about services those stay that both policies have first. The rest is cleared from the end.
file policy
policy 3
group ops
service a x=1
service a x=2
refuse b
service c
user bob in ops

file next
policy 3
group ops
service a x=1
service b y=1 2
service c
user bob in ops
refuse a
user eve
service a x=1

$ tacd diff --edits policy next
begin
add user eve
clear service group ops c
clear service group ops b
clear service group ops a x=2
service group ops b y=1 2
service group ops c
refuse user bob a
service user eve a x=1
commit

$ tacd diff --edits next policy
begin
remove user eve
clear service group ops c
clear service group ops b y=1 2
service group ops a x=2
refuse group ops b
service group ops c
clear service user bob a
commit

$ tacd diff --edits next next

# They decide on no command line, but users are given something else.
$ tacd diff --exit-code policy next
user bob service a now refused
user bob service b now granted
user bob service b now gives: y=1 2
user eve service a now granted
user eve service a now gives: x=1
status 5
