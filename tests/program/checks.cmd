file policy
group ops
permit show .*
user bob in ops

$ tacd check policy
policy ok: 2 subjects, 1 rules
none

file policy
|# two rules together|
group g
deny [a-m].*
deny [n-z].*
permit [a-z]x
||
user u in g
| permit .*␃|

$ tacd check policy
policy ok: 2 subjects, 4 rules
shadowed in group g: group g rule 3
shadowed in user u: group g rule 1
shadowed in user u: group g rule 2
shadowed in user u: group g rule 3

file policy

$ tacd check policy
policy ok: 0 subjects, 0 rules
none

file policy
|# nobody yet␃|

$ tacd check policy
policy ok: 0 subjects, 0 rules
none

# Lines about services are counted where there are any.
file policy
policy 3
group ops
service shell shell:roles*"network-admin"
permit show .*
user bob in ops
service shell
refuse junos-exec

$ tacd check policy
policy ok: 2 subjects, 1 rules, 3 service lines
none

file policy
policy 2
group ops
service shell

$ tacd check policy
fault line 3 1 BadLine
! tacd: 'tacd lint policy' says more
status 1

file policy
policy 3
group ops
service shell priv-lvl=15

$ tacd check policy
fault line 3 6 BadValue
! tacd: 'tacd lint policy' says more
status 1
