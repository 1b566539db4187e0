# What is there in place of the file of `--keep-edits` would be lost. It is said before anything of
# the policy.
file policy

$ tacd serve --port 1 --key k --console /nowhere/c --keep-edits / policy
! tacd: /: it is no regular file
status 4

$ tacd serve --port 1 --key k --console /nowhere/c --keep-edits /dev/null policy
! tacd: /dev/null: it is no regular file
status 4

file policy
x␃

$ tacd serve --port 1 --key k --console /nowhere/c --keep-edits / policy
! tacd: /: it is no regular file
status 4

$ tacd serve --port 1 --key k --console /nowhere/c --keep-edits /dev/null policy
! tacd: /dev/null: it is no regular file
status 4
