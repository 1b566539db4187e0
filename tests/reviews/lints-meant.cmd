# A habit is another reading of the rule: the line that was probably meant is denied.
file policy
user b
permit ^show

$ tacd why policy b show
denied by default

$ tacd why policy b '^show'
permitted by user b rule 1

file policy
user b
permit show$

$ tacd why policy b show
denied by default

$ tacd why policy b 'show$'
permitted by user b rule 1

file policy
user b
permit vlan \d

$ tacd why policy b vlan 7
denied by default

$ tacd why policy b vlan d
permitted by user b rule 1

file policy
user b
permit a{1,3}

$ tacd why policy b aa
denied by default

$ tacd why policy b 'a{1,3}'
permitted by user b rule 1

file policy
user b
permit [[:alpha:]]

$ tacd why policy b z
denied by default

$ tacd why policy b 'h]'
permitted by user b rule 1

file policy
user b
permit exit

$ tacd why policy b exit '<cr>'
denied by default

$ tacd why policy b exit
permitted by user b rule 1
