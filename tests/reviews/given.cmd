# What a user is given for a service, and by whom.
file policy
policy 3
group all
priv 7
service shell timeout=5
service junos-exec local-user-name=all
group netops in all
service shell shell:roles*"network-admin"
service shell cisco-av-pair*shell:roles=network-admin
service junos-exec local-user-name=ops
service junos-exec allow-commands=(show|ping) .*
service PaloAlto/firewall PaloAlto-Admin-Role=superuser
service sshd/unknown
permit ()
user bob in netops
user ann in netops
priv 0
service shell
permit .*
user eve in netops
refuse junos-exec
deny ()
user abe
permit .*

# A shell, as `why` tells it: the level first, each by the nearest that says something.
$ tacd given policy bob shell
permitted by group netops rule 1
group all gives priv-lvl=7
group netops gives shell:roles*"network-admin"
group netops gives cisco-av-pair*shell:roles=network-admin

$ tacd given policy ann shell
permitted by user ann rule 1
user ann gives priv-lvl=0

$ tacd given policy eve shell
denied by user eve rule 1

$ tacd given policy abe shell
permitted by user abe rule 1

$ tacd given policy dora shell
unknown user

# Other services.
$ tacd given policy bob junos-exec
granted by group netops
group netops gives local-user-name=ops
group netops gives allow-commands=(show|ping) .*

$ tacd given policy eve PaloAlto/firewall
granted by group netops
group netops gives PaloAlto-Admin-Role=superuser

$ tacd given policy bob sshd/unknown
granted by group netops

$ tacd given policy eve junos-exec
refused by user eve

$ tacd given policy bob exec
unsupported service

$ tacd given policy bob PaloAlto/panorama
unsupported service

$ tacd given policy bob PaloAlto
unsupported service

$ tacd given policy dora junos-exec
unknown user

# What is no user, or no service.
$ tacd given policy 'bob x' shell
fault BadQuestion
status 1

$ tacd given policy b/b shell
fault BadQuestion
status 1

$ tacd given policy '' shell
fault BadQuestion
status 1

$ tacd given policy bob shell/x
fault BadQuestion
status 1

$ tacd given policy bob 'a b'
fault BadQuestion
status 1

$ tacd given policy bob ''
fault BadQuestion
status 1

$ tacd given policy bob x:y
fault BadQuestion
status 1

# Policies that are refused, or aren't there.
file draft
policy 3
user bob
refuse shell

$ tacd given draft bob shell
draft: fault line 3 6 BadValue
! tacd: 'tacd lint draft' says more
status 1

$ tacd given nowhere bob shell
! tacd: nowhere: No such file or directory (os error 2)
status 4

$ tacd given policy bob shell > /dev/full
! tacd: the output could not be written
status 4
