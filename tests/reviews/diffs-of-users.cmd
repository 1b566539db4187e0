# Users of both policies, of either, and of groups that share rules.
file old
group ops
permit show .*
group net in ops
permit ping .*
user bob in ops
user eve in net
user ann in ops
user zed in net
user gone in net
user idle

file new
group ops
deny show run
permit show .*
user zed in ops
user bob in ops
user come in ops
permit reload
user eve in ops
user ann in net
group net in ops
permit ping .*
user idle
login x

$ tacd diff --exit-code old new
|user zed now denies: ping |
user bob now denies: show run
|user come now permits: show |
|user eve now denies: ping |
|user ann now permits: ping |
user ann now denies: show run
|user gone now denies: ping |
user idle login set
status 5

$ tacd diff --exit-code new old
user bob now permits: show run
|user eve now permits: ping |
user ann now permits: show run
|user ann now denies: ping |
|user zed now permits: ping |
|user gone now permits: ping |
|user come now denies: show |
user idle login cleared
status 5

$ tacd diff --exit-code old old
same

$ tacd diff --exit-code new new
same

# Groups may do nothing by themselves, and a user who may do nothing is as one who isn't there.
file old

$ tacd diff --exit-code old old
same

file new
group g
permit .*
user u

$ tacd diff --exit-code old new
same

# One line alone.
file new
user u
permit x

$ tacd diff --exit-code old new
user u now permits: x
status 5

# Other rules that decide alike on every line.
file old
user u
permit (a|b)*

file new
group g
permit b*(ab*)*
user u in g
deny c

$ tacd diff --exit-code old new
same
