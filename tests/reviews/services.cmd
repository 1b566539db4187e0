# What users are given otherwise for services comes after the lines of all users.
file old
policy 3
group ops
priv 15
service shell shell:roles*"network-admin"
service junos-exec local-user-name=ops
service junos-exec allow-commands=show .*
service ppp/ip a=1
service fortigate admin_prof=prof_admin
permit ()
permit show .*
user bob in ops
user eve in ops
refuse ppp/ip
user gone in ops
user zed

file new
policy 3
group ops
priv 7
service shell shell:roles*"network-admin"
service junos-exec allow-commands=show .*
service junos-exec local-user-name=ops
service ppp/ip a=2
service ppp/ip b=
service sshd/unknown
permit ()
permit show version
user zed
user eve in ops
user bob in ops
refuse junos-exec
user come in ops

$ tacd diff --exit-code old new
|user eve now denies: show |
|user bob now denies: show |
|user come now permits: |
|user gone now denies: |
user eve service shell now gives: priv-lvl=7
user eve service shell no longer gives: priv-lvl=15
user eve service junos-exec gives the same in another order
user eve service ppp/ip now granted
user eve service ppp/ip now gives: a=2
user eve service ppp/ip now gives: b=
user eve service sshd/unknown now granted
user eve service fortigate now refused
user bob service shell now gives: priv-lvl=7
user bob service shell no longer gives: priv-lvl=15
user bob service junos-exec now refused
user bob service ppp/ip now gives: a=2
user bob service ppp/ip now gives: b=
user bob service ppp/ip no longer gives: a=1
user bob service sshd/unknown now granted
user bob service fortigate now refused
user come service shell now gives: priv-lvl=7
user come service shell now gives: shell:roles*"network-admin"
user come service junos-exec now granted
user come service junos-exec now gives: allow-commands=show .*
user come service junos-exec now gives: local-user-name=ops
user come service ppp/ip now granted
user come service ppp/ip now gives: a=2
user come service ppp/ip now gives: b=
user come service sshd/unknown now granted
user gone service shell no longer gives: priv-lvl=15
user gone service shell no longer gives: shell:roles*"network-admin"
user gone service junos-exec now refused
user gone service ppp/ip now refused
user gone service fortigate now refused
status 5

$ tacd diff --exit-code old old
same

# A level is told where a shell starts, and where no line names a service too.
file old
user bob
priv 1
permit ()
user eve
priv 1

file new
user bob
priv 2
permit ()
user eve
priv 2

$ tacd diff --exit-code old new
user bob service shell now gives: priv-lvl=2
user bob service shell no longer gives: priv-lvl=1
status 5

# A shell that no longer starts is told among lines.
file new
user bob
priv 1
user eve
priv 1

$ tacd diff --exit-code old new
|user bob now denies: |
user bob service shell no longer gives: priv-lvl=1
status 5

# Without a level it is told there alone.
file old
user bob
permit ()

file new
user bob

$ tacd diff --exit-code old new
|user bob now denies: |
status 5

# What nobody is given through isn't told: another subject is nearer, or nobody is in the group.
file old
policy 3
group all
service a x=1
group ops in all
service a x=2
group empty
user bob in ops

file new
policy 3
group all
service a x=3
group ops in all
service a x=2
group empty
service b
user bob in ops

$ tacd diff --exit-code old new
same

# Yet the two policies differ, and there are edits.
$ tacd diff --edits --exit-code old new
begin
clear service group all a x=1
service group all a x=3
service group empty b
commit
status 5

# The same attributes of a shell in another order; its level stays before them.
file old
policy 3
user bob
priv 1
service shell a*1
service shell b*2
permit ()

file new
policy 3
user bob
service shell b*2
priv 1
service shell a*1
permit ()

$ tacd diff --exit-code old new
user bob service shell gives the same in another order
status 5

# A shell that nobody may start is given nothing, and a level that comes from elsewhere is the same.
file old
policy 3
group far
priv 3
group ops in far
permit ()
user bob in ops
user eve in ops
service shell a*1
deny ()

file new
policy 3
group far
group ops in far
priv 3
permit ()
user bob in ops
user eve in ops
service shell a*2
deny ()

$ tacd diff --exit-code old new
same
