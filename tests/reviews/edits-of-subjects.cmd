# Rules that are moved, dropped and inserted.
file rules
group ops
permit a
deny b
permit c
permit d
deny e

$ tacd diff --edits rules rules

file turned
group ops
deny b
permit c
permit d
deny e
permit a

$ tacd diff --edits rules turned
begin
shift group ops 1 5
commit

$ tacd diff --edits turned rules
begin
shift group ops 5 1
commit

file crossed
group ops
permit d
permit c
deny b
permit a
deny e

$ tacd diff --edits rules crossed
begin
shift group ops 4 1
shift group ops 4 2
shift group ops 4 3
commit

file mixed
group ops
deny e
permit a
permit b
permit c
permit c

$ tacd diff --edits rules mixed
begin
drop group ops 4
drop group ops 2
shift group ops 3 1
insert group ops 3 permit b
insert group ops 5 permit c
commit

# Subjects that come, go and move, with what is set of them.
file subjects
group a
group b in a
permit x
user b in b
login one
user gone in a
group left
user eve in left
priv 3

file swapped
group b
permit x
group a in b
user b in a
enable two
user eve
group new in a
user left in new
priv 15
deny y

$ tacd diff --edits subjects swapped
begin
remove user gone
move group b out
move user eve out
move group a in b
move user b in a
add group new in a
add user left in new
remove group left
clear login b
enable b two
clear priv user eve
priv user left 15
insert user left 1 deny y
commit

# The order of subjects decides nothing.
file turned
user eve in left
priv 3
group left
user gone in a
user b in b
login one
group b in a
permit x
group a

$ tacd diff --edits subjects turned

# A chain of eight comes from above, and goes from below, though its text says it the other way.
file eight
group h in g
group g in f
group f in e
group e in d
group d in c
group c in b
group b in a
group a

file none

$ tacd diff --edits none eight
begin
add group a
add group b in a
add group c in b
add group d in c
add group e in d
add group f in e
add group g in f
add group h in g
commit

$ tacd diff --edits eight none
begin
remove group h
remove group g
remove group f
remove group e
remove group d
remove group c
remove group b
remove group a
commit

# If `k` moved first, the chain of `n` would have nine subjects for a while.
file old
group a
group b in a
group c in b
group d in c
group e in d
group p
group q in p
group r in q
group s in r
group t in s
group k
group l in k
group m in l
group n in m

file new
group k in e
group l in t
group m in l
group n in m
group a
group b in a
group c in b
group d in c
group e in d
group p
group q in p
group r in q
group s in r
group t in s

$ tacd diff --edits old new
begin
move group l in t
move group k in e
commit

# Each setting by itself, beside rules that it doesn't touch.
file old
user ann
login one
enable two
priv 3
permit a
user bob
priv 0
permit b
user eve
permit c
group ops
priv 15
permit d

file new
user ann
login two
enable two
priv 3
permit a
user bob
priv 0
permit b
user eve
permit c
group ops
priv 15
permit d

$ tacd diff --edits old new
begin
login ann two
commit

file new
user ann
enable two
priv 3
permit a
user bob
priv 0
permit b
user eve
permit c
group ops
priv 15
permit d

$ tacd diff --edits old new
begin
clear login ann
commit

file new
user ann
login one
enable two
priv 3
permit a
user bob
priv 0
permit b
user eve
login one
permit c
group ops
priv 15
permit d

$ tacd diff --edits old new
begin
login eve one
commit

file new
user ann
login one
enable one
priv 3
permit a
user bob
priv 0
permit b
user eve
permit c
group ops
priv 15
permit d

$ tacd diff --edits old new
begin
enable ann one
commit

file new
user ann
login one
priv 3
permit a
user bob
priv 0
permit b
user eve
permit c
group ops
priv 15
permit d

$ tacd diff --edits old new
begin
clear enable ann
commit

file new
user ann
login one
enable two
priv 3
permit a
user bob
priv 0
permit b
user eve
enable two
permit c
group ops
priv 15
permit d

$ tacd diff --edits old new
begin
enable eve two
commit

file new
user ann
login one
enable two
priv 0
permit a
user bob
priv 0
permit b
user eve
permit c
group ops
priv 15
permit d

$ tacd diff --edits old new
begin
priv user ann 0
commit

file new
user ann
login one
enable two
priv 4
permit a
user bob
priv 0
permit b
user eve
permit c
group ops
priv 15
permit d

$ tacd diff --edits old new
begin
priv user ann 4
commit

file new
user ann
login one
enable two
permit a
user bob
priv 0
permit b
user eve
permit c
group ops
priv 15
permit d

$ tacd diff --edits old new
begin
clear priv user ann
commit

file new
user ann
login one
enable two
priv 3
permit a
user bob
priv 1
permit b
user eve
permit c
group ops
priv 15
permit d

$ tacd diff --edits old new
begin
priv user bob 1
commit

file new
user ann
login one
enable two
priv 3
permit a
user bob
permit b
user eve
permit c
group ops
priv 15
permit d

$ tacd diff --edits old new
begin
clear priv user bob
commit

file new
user ann
login one
enable two
priv 3
permit a
user bob
priv 0
permit b
user eve
priv 0
permit c
group ops
priv 15
permit d

$ tacd diff --edits old new
begin
priv user eve 0
commit

file new
user ann
login one
enable two
priv 3
permit a
user bob
priv 0
permit b
user eve
permit c
group ops
priv 0
permit d

$ tacd diff --edits old new
begin
priv group ops 0
commit

file new
user ann
login one
enable two
priv 3
permit a
user bob
priv 0
permit b
user eve
permit c
group ops
permit d

$ tacd diff --edits old new
begin
clear priv group ops
commit
