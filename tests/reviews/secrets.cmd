# Each thing that may become of a secret, of either kind.
file old
user both
login one
enable two
user ann
login one
user bob
enable two
user eve

file new
user both
enable two
login one
user ann
login other
enable one
user bob
login one
user eve
login e
enable e

$ tacd diff --exit-code old new
user ann login changed
user ann enable set
user bob login set
user bob enable cleared
user eve login set
user eve enable set
status 5

$ tacd diff --exit-code new old
user ann login changed
user ann enable cleared
user bob login cleared
user bob enable set
user eve login cleared
user eve enable cleared
status 5

$ tacd diff --exit-code old old
same

$ tacd diff --exit-code new new
same

$ tacd diff old new
user ann login changed
user ann enable set
user bob login set
user bob enable cleared
user eve login set
user eve enable set

# A single one, told with either status.
file one
user u
login x

file other
user u
login y

$ tacd diff one other
user u login changed

$ tacd diff --exit-code one other
user u login changed
status 5

# Blanks count, and so does each symbol.
file spaced
user u
|login x |

file long
user u
login xx

file upper
user u
login X

$ tacd diff --exit-code one spaced
user u login changed
status 5

$ tacd diff --exit-code spaced one
user u login changed
status 5

$ tacd diff --exit-code one long
user u login changed
status 5

$ tacd diff --exit-code one upper
user u login changed
status 5

# Hashes: the same, others, and one of a secret that was in the clear.
file hashes
policy 3
user ann
login-hash $6$saltsalt$temoAzB1LMUGfs39YsEHhlSSY8ud5tjHcrE1ZINzi8TsesBqqjufdtA7fVhnojTHlBhKZVF0Q9wxWAcE707Cb0
enable-hash $6$rounds=1000$a.b/c$DTK7hHK5OlG9lAtBisZZCIY54BYeEOnsDdkgHm/Wcq/9YSzDqMBrwZrornT.TWCVBpL3I8Y8Cl1mhQ3EWAHpl.
user bob
login-hash $6$rounds=1000$a.b/c$DTK7hHK5OlG9lAtBisZZCIY54BYeEOnsDdkgHm/Wcq/9YSzDqMBrwZrornT.TWCVBpL3I8Y8Cl1mhQ3EWAHpl.
user eve
login-hash $6$saltsalt$temoAzB1LMUGfs39YsEHhlSSY8ud5tjHcrE1ZINzi8TsesBqqjufdtA7fVhnojTHlBhKZVF0Q9wxWAcE707Cb0

file hashed
policy 3
user ann
login-hash $6$saltsalt$temoAzB1LMUGfs39YsEHhlSSY8ud5tjHcrE1ZINzi8TsesBqqjufdtA7fVhnojTHlBhKZVF0Q9wxWAcE707Cb0
enable-hash $6$rounds=1000$a.b/c$DTK7hHK5OlG9lAtBisZZCIY54BYeEOnsDdkgHm/Wcq/9YSzDqMBrwZrornT.TWCVBpL3I8Y8Cl1mhQ3EWAHpl.
user bob
login-hash $6$saltsalt$temoAzB1LMUGfs39YsEHhlSSY8ud5tjHcrE1ZINzi8TsesBqqjufdtA7fVhnojTHlBhKZVF0Q9wxWAcE707Cb0
user eve
enable-hash $6$saltsalt$temoAzB1LMUGfs39YsEHhlSSY8ud5tjHcrE1ZINzi8TsesBqqjufdtA7fVhnojTHlBhKZVF0Q9wxWAcE707Cb0

file clear
policy 3
user ann
login-hash $6$rounds=1000$a.b/c$DTK7hHK5OlG9lAtBisZZCIY54BYeEOnsDdkgHm/Wcq/9YSzDqMBrwZrornT.TWCVBpL3I8Y8Cl1mhQ3EWAHpl.
enable wonder
user bob
login $6$rounds=1000$a.b/c$DTK7hHK5OlG9lAtBisZZCIY54BYeEOnsDdkgHm/Wcq/9YSzDqMBrwZrornT.TWCVBpL3I8Y8Cl1mhQ3EWAHpl.
user eve
login wonder
enable-hash $6$saltsalt$temoAzB1LMUGfs39YsEHhlSSY8ud5tjHcrE1ZINzi8TsesBqqjufdtA7fVhnojTHlBhKZVF0Q9wxWAcE707Cb0

$ tacd diff --exit-code hashes hashes
same

$ tacd diff --exit-code hashes hashed
user bob login changed
user eve login cleared
user eve enable set
status 5

$ tacd diff --exit-code hashed hashes
user bob login changed
user eve login set
user eve enable cleared
status 5

$ tacd diff --exit-code hashes clear
user ann login changed
user ann enable changed
user bob login changed
user eve login changed
user eve enable set
status 5

$ tacd diff --exit-code clear hashes
user ann login changed
user ann enable changed
user bob login changed
user eve login changed
user eve enable cleared
status 5

# Users of the new policy in its order, then those of the old one alone. Who is new or gone had, or
# has, no secret. A group of a user's name has nothing to do with it.
file before
group come
user zed
login z
enable z
user gone
user left
enable l
user stay
login s

file after
group left
user come
login c
user stay
login t
user idle
group zed
permit x
user new in zed
enable n
login n

$ tacd diff --exit-code before after
user new now permits: x
user come login set
user stay login changed
user new login set
user new enable set
user zed login cleared
user zed enable cleared
user left enable cleared
status 5

$ tacd diff --exit-code after before
user new now denies: x
user zed login set
user zed enable set
user left enable set
user stay login changed
user come login cleared
user new login cleared
user new enable cleared
status 5

# After all lines, and after all services.
file plain
policy 3
user ann
login one
permit a
user bob
login two
service s x=1

file changed
policy 3
user bob
login three
service s x=2
user ann
login four
permit b

$ tacd diff --exit-code plain changed
user ann now permits: b
user ann now denies: a
user bob service s now gives: x=2
user bob service s no longer gives: x=1
user bob login changed
user ann login changed
status 5

# Where a policy is refused nothing is told of secrets.
file bad
user u
login one
login two

$ tacd diff one bad
bad: fault line 3 3 Repeated
! tacd: 'tacd lint bad' says more
status 1
