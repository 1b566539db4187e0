# Cases that are met, none, and some that are not.
file policy
group ops
permit show .*
deny ping .*
user bob in ops
permit ping
user eve in ops
permit ()

file cases
|# what is permitted|
permit bob show version
permit eve
| deny bob ping 10.0.0.1|
||
deny eve ping x
deny eve reload

$ tacd test policy cases
ok

file cases

$ tacd test policy cases
ok

file cases
permit bob show version
deny bob ping
permit bob reload
||
permit zed show
deny zed show
|deny eve ␃|

$ tacd test policy cases
line 2: deny bob ping: permitted by user bob rule 1
line 3: permit bob reload: denied by default
line 5: permit zed show: unknown user
line 6: deny zed show: unknown user
line 7: deny eve : permitted by user eve rule 1
status 1

# Lines that are no case.
file cases
|# no case follows|
permit bob reload
x
x

$ tacd test policy cases
cases: fault line 3 BadCase
status 1

file cases
|# no case follows|
permit bob reload
permit
x

$ tacd test policy cases
cases: fault line 3 BadCase
status 1

file cases
|# no case follows|
permit bob reload
deny
x

$ tacd test policy cases
cases: fault line 3 BadCase
status 1

file cases
|# no case follows|
permit bob reload
|permit |
x

$ tacd test policy cases
cases: fault line 3 BadCase
status 1

file cases
|# no case follows|
permit bob reload
permits bob x
x

$ tacd test policy cases
cases: fault line 3 BadCase
status 1

file cases
|# no case follows|
permit bob reload
Permit bob x
x

$ tacd test policy cases
cases: fault line 3 BadCase
status 1

file cases
|# no case follows|
permit bob reload
permit  bob x
x

$ tacd test policy cases
cases: fault line 3 BadCase
status 1

file cases
|# no case follows|
permit bob reload
permit b/b x
x

$ tacd test policy cases
cases: fault line 3 BadCase
status 1

file cases
|# no case follows|
permit bob reload
deny bob␉x
x

$ tacd test policy cases
cases: fault line 3 BadCase
status 1

file cases
|# no case follows|
permit bob reload
deny bob x␍
x

$ tacd test policy cases
cases: fault line 3 BadCase
status 1

file cases
|# no case follows|
permit bob reload
bob show
x

$ tacd test policy cases
cases: fault line 3 BadCase
status 1

# Services: what is granted, what isn't, and what is given.
file policy
policy 3
group netops
priv 15
service shell shell:roles*"network-admin"
service junos-exec local-user-name=ops
service junos-exec allow-commands=(show|ping) .*
service PaloAlto/firewall PaloAlto-Admin-Role=superuser
service sshd/unknown
permit ()
user bob in netops
priv 1
user eve in netops
refuse junos-exec
deny ()
user abe

file cases
grant bob shell
grant bob junos-exec
grant bob sshd/unknown
refuse bob exec
refuse bob PaloAlto/panorama
refuse bob sshd
refuse eve junos-exec
grant eve PaloAlto/firewall
refuse eve shell
refuse abe shell
refuse abe junos-exec
give bob shell priv-lvl=1
give bob shell shell:roles*"network-admin"
give bob junos-exec allow-commands=(show|ping) .*
|  give eve PaloAlto/firewall PaloAlto-Admin-Role=superuser|

$ tacd test policy cases
ok

file cases
grant bob exec
grant bob PaloAlto/panorama
grant eve junos-exec
grant eve shell
grant abe shell
grant zed shell
refuse bob shell
refuse bob junos-exec
refuse bob sshd/unknown
refuse zed junos-exec
refuse zed shell
give bob shell priv-lvl=15
give bob shell shell:roles="network-admin"
|give bob junos-exec local-user-name=ops |
give bob junos-exec local-user-name=op
give bob sshd/unknown role=ops
give bob exec a=b
give eve junos-exec local-user-name=ops
give eve shell priv-lvl=15
give zed junos-exec local-user-name=ops

$ tacd test policy cases
line 1: grant bob exec: unsupported service
line 2: grant bob PaloAlto/panorama: unsupported service
line 3: grant eve junos-exec: refused by user eve
line 4: grant eve shell: denied by user eve rule 1
line 5: grant abe shell: denied by default
line 6: grant zed shell: unknown user
line 7: refuse bob shell: permitted by group netops rule 1
line 8: refuse bob junos-exec: granted by group netops
line 9: refuse bob sshd/unknown: granted by group netops
line 10: refuse zed junos-exec: unknown user
line 11: refuse zed shell: unknown user
line 12: give bob shell priv-lvl=15: not given
line 13: give bob shell shell:roles="network-admin": not given
line 14: give bob junos-exec local-user-name=ops : not given
line 15: give bob junos-exec local-user-name=op: not given
line 16: give bob sshd/unknown role=ops: not given
line 17: give bob exec a=b: unsupported service
line 18: give eve junos-exec local-user-name=ops: refused by user eve
line 19: give eve shell priv-lvl=15: denied by user eve rule 1
line 20: give zed junos-exec local-user-name=ops: unknown user
status 1

file cases
grant bob shell
grant bob

$ tacd test policy cases
cases: fault line 2 BadCase
status 1

file cases
grant bob shell
|grant bob |

$ tacd test policy cases
cases: fault line 2 BadCase
status 1

file cases
grant bob shell
grant bob shell/x

$ tacd test policy cases
cases: fault line 2 BadCase
status 1

file cases
grant bob shell
grant bob x y

$ tacd test policy cases
cases: fault line 2 BadCase
status 1

file cases
grant bob shell
grant b/b shell

$ tacd test policy cases
cases: fault line 2 BadCase
status 1

file cases
grant bob shell
refuse bob x:y

$ tacd test policy cases
cases: fault line 2 BadCase
status 1

file cases
grant bob shell
give bob shell

$ tacd test policy cases
cases: fault line 2 BadCase
status 1

file cases
grant bob shell
give bob shell/x a=b

$ tacd test policy cases
cases: fault line 2 BadCase
status 1

file cases
grant bob shell
give bob x:y a=b

$ tacd test policy cases
cases: fault line 2 BadCase
status 1

file cases
grant bob shell
give bob junos-exec a=ü

$ tacd test policy cases
cases: fault line 2 BadCase
status 1

file cases
grant bob shell
given bob shell

$ tacd test policy cases
cases: fault line 2 BadCase
status 1

file cases
grant bob shell
Grant bob shell

$ tacd test policy cases
cases: fault line 2 BadCase
status 1

# All kinds of cases in one table, of which the first that is none refuses it.
file cases
permit bob
refuse bob exec
deny bob reload
grant bob junos-exec
give bob junos-exec local-user-name=op

$ tacd test policy cases
line 5: give bob junos-exec local-user-name=op: not given
status 1

file cases
grant bob shell
grant

$ tacd test policy cases
cases: fault line 2 BadCase
status 1

file cases
grant bob shell
|refuse |

$ tacd test policy cases
cases: fault line 2 BadCase
status 1

file cases
grant bob shell
refuse  bob x

$ tacd test policy cases
cases: fault line 2 BadCase
status 1

file cases
grant bob shell
refuse bob  x

$ tacd test policy cases
cases: fault line 2 BadCase
status 1

file cases
grant bob shell
|refuse bob x |

$ tacd test policy cases
cases: fault line 2 BadCase
status 1

file cases
grant bob shell
|give bob |

$ tacd test policy cases
cases: fault line 2 BadCase
status 1

file cases
grant bob shell
give  bob x a=b

$ tacd test policy cases
cases: fault line 2 BadCase
status 1

file cases
grant bob shell
give bob  x a=b

$ tacd test policy cases
cases: fault line 2 BadCase
status 1

file cases
grant bob shell
|Give bob x a=b|

$ tacd test policy cases
cases: fault line 2 BadCase
status 1

file cases
grant bob shell
grant bob shell a=b

$ tacd test policy cases
cases: fault line 2 BadCase
status 1

file cases
grant bob shell
give bob x a=b␍

$ tacd test policy cases
cases: fault line 2 BadCase
status 1
