file policy
group ops
permit show .*
user bob in ops

$ tacd diff policy policy
same

$ tacd diff --exit-code policy policy
same

file next
group ops
deny show run
permit show .*
user bob in ops
user eve in ops

$ tacd diff policy next
user bob now denies: show run
|user eve now permits: show |

$ tacd diff next policy
user bob now permits: show run
|user eve now denies: show |

$ tacd diff --exit-code policy next
user bob now denies: show run
|user eve now permits: show |
status 5

$ tacd diff policy next --exit-code
user bob now denies: show run
|user eve now permits: show |
status 5

# a single line that one user gains
file more
group ops
permit show .*
permit ping
user bob in ops

$ tacd diff policy more
user bob now permits: ping

$ tacd diff --exit-code more policy
user bob now denies: ping
status 5
