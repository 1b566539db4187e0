open file open-policy
x␃

# A server says so of a policy that others can read, and takes it. A check doesn't say it.
$ tacd serve --port 1 --key k open-policy
fault line 1 1 BadLine
! tacd: open-policy: it has secrets, and any user of this machine can read it
! tacd: 'tacd lint open-policy' says more
status 1

$ tacd check open-policy
fault line 1 1 BadLine
! tacd: 'tacd lint open-policy' says more
status 1
