# The least line whose decision changes from one list of rules to another, each way.
file old
policy 2
user u
permit show .*

file new
policy 2
user u
permit show .*

$ tacd diff old new
same

file old
policy 2
user u

file new
policy 2
user u
permit show .*

$ tacd diff old new
|user u now permits: show |

file old
policy 2
user u
permit show .*

file new
policy 2
user u
deny show .*
permit show .*

$ tacd diff old new
|user u now denies: show |

file old
policy 2
user u
permit a.*

file new
policy 2
user u
permit b.*

$ tacd diff old new
user u now permits: b
user u now denies: a

# The shorter text comes first, then the lower symbol.
file old
policy 2
user u
permit .*

file new
policy 2
user u
deny aaa
deny ~|\}\}
permit .*

$ tacd diff old new
user u now denies: ~

file old
policy 2
user u
permit .*

file new
policy 2
user u
deny [a-m].*
deny [A-Z].*
permit .*

$ tacd diff old new
user u now denies: A

file old
policy 2
user u
permit .*

file new
policy 2
user u
deny [ -m][^!].*
deny [!-Z].
permit .*

$ tacd diff old new
|user u now denies:   |

# Each tells symbols apart that the other doesn't.
file old
policy 2
user u
permit [a-m].*

file new
policy 2
user u
permit [a-z].*

$ tacd diff old new
user u now permits: n

file old
policy 2
user u
permit [0-9]

file new
policy 2
user u
permit [0-4]

$ tacd diff old new
user u now denies: 5

file old
policy 2
user u
permit a[^x]

file new
policy 2
user u
permit a[w-z]

$ tacd diff old new
user u now permits: ax
|user u now denies: a |

# The first rule that matches decides.
file old
policy 2
user u
permit a
deny a

file new
policy 2
user u
deny a
permit a

$ tacd diff old new
user u now denies: a

file old
policy 2
user u
deny a
permit a

file new
policy 2
user u
permit a
deny a

$ tacd diff old new
user u now permits: a

file old
policy 2
user u
permit a|b

file new
policy 2
user u
permit a
deny .*
permit b

$ tacd diff old new
user u now denies: b

# What no rule decides is denied, as by a rule.
file old
policy 2
user u
deny .*

file new
policy 2
user u

$ tacd diff old new
same

file old
policy 2
user u
permit .*c

file new
policy 2
user u
permit .*c
deny .*

$ tacd diff old new
same

# The empty text, too.
file old
policy 2
user u

file new
policy 2
user u
permit ()

$ tacd diff old new
|user u now permits: |

file old
policy 2
user u
permit a*

file new
policy 2
user u
deny (aa)*
permit a*

$ tacd diff old new
|user u now denies: |

file old
policy 2
user u
permit a*

file new
policy 2
user u
deny a(aa)*
permit a*

$ tacd diff old new
user u now denies: a

# Many pairs of states.
file old
policy 2
user u
permit .*a........

file new
policy 2
user u
permit .*b........

$ tacd diff old new
|user u now permits: b        |
|user u now denies: a        |
