$ tacd serve --key k --port 0 policy
! error: invalid value '0' for '--port <P>': 0 is not in 1..=65535
!
! For more information, try '--help'.
status 2

$ tacd serve --key k --port 65536 policy
! error: invalid value '65536' for '--port <P>': 65536 is not in 1..=65535
!
! For more information, try '--help'.
status 2

$ tacd serve --key k --port tacacs policy
! error: invalid value 'tacacs' for '--port <P>': invalid digit found in string
!
! For more information, try '--help'.
status 2

$ tacd serve --key k --port 1 --workers 0 policy
! error: invalid value '0' for '--workers <W>': 0 is not in 1..=63
!
! For more information, try '--help'.
status 2

$ tacd serve --key k --port 1 --workers 64 policy
! error: invalid value '64' for '--workers <W>': 64 is not in 1..=63
!
! For more information, try '--help'.
status 2

$ tacd serve --key k --port 1 --connections 0 policy
! error: invalid value '0' for '--connections <N>': 0 is not in 1..=4294967295
!
! For more information, try '--help'.
status 2

$ tacd serve --key k --port 1 --connections 4294967296 policy
! error: invalid value '4294967296' for '--connections <N>': 4294967296 is not in 1..=4294967295
!
! For more information, try '--help'.
status 2

$ tacd serve --key k --port 1 --idle 86401 policy
! error: invalid value '86401' for '--idle <SECONDS>': 86401 is not in 0..=86400
!
! For more information, try '--help'.
status 2

$ tacd serve --key k --port 1 --connections-at-once 0 policy
! error: invalid value '0' for '--connections-at-once <N>': 0 is not in 1..=1000000
!
! For more information, try '--help'.
status 2

$ tacd serve --key k --port 1 --connections-at-once 1000001 policy
! error: invalid value '1000001' for '--connections-at-once <N>': 1000001 is not in 1..=1000000
!
! For more information, try '--help'.
status 2

$ tacd serve --key k --port 1 --per-address 1000001 policy
! error: invalid value '1000001' for '--per-address <N>': 1000001 is not in 0..=1000000
!
! For more information, try '--help'.
status 2

$ tacd serve --key k --port 1 --packet-memory 0 policy
! error: invalid value '0' for '--packet-memory <MB>': 0 is not in 1..=65536
!
! For more information, try '--help'.
status 2

$ tacd serve --key k --port 1 --packet-memory 65537 policy
! error: invalid value '65537' for '--packet-memory <MB>': 65537 is not in 1..=65536
!
! For more information, try '--help'.
status 2

$ tacd serve --key k --port 1 --login-idle 86401 policy
! error: invalid value '86401' for '--login-idle <SECONDS>': 86401 is not in 0..=86400
!
! For more information, try '--help'.
status 2

$ tacd serve --key k --port 1 --keep-records 999 policy
! error: invalid value '999' for '--keep-records <N>': 999 is not in 1000..=10000000
!
! For more information, try '--help'.
status 2

$ tacd serve --key k --port 1 --keep-records 10000001 policy
! error: invalid value '10000001' for '--keep-records <N>': 10000001 is not in 1000..=10000000
!
! For more information, try '--help'.
status 2

$ tacd serve --key k --port 1 --fail-delay 3001 policy
! error: invalid value '3001' for '--fail-delay <MILLISECONDS>': 3001 is not in 0..=3000
!
! For more information, try '--help'.
status 2

$ tacd serve --key k --port 1 --rotate-at 0 policy
! error: invalid value '0' for '--rotate-at <N>': 0 is not in 1..=65536
!
! For more information, try '--help'.
status 2

$ tacd serve --key k --port 1 --address 127.0.0 policy
! error: invalid value '127.0.0' for '--address <ADDR>': invalid IP address syntax
!
! For more information, try '--help'.
status 2

# The least and the greatest of each are taken: so the file is looked for.
$ tacd serve --key k --port 1 --workers 1 --connections-at-once 1 --per-address 0 --packet-memory 1 --idle 0 --login-idle 0 --fail-delay 0 --keep-records 1000 --connections 1 --rotate-at 1 nowhere
! tacd: nowhere: No such file or directory (os error 2)
status 4

$ tacd serve --key k --port 65535 --workers 63 --connections-at-once 1000000 --per-address 1000000 --packet-memory 65536 --idle 86400 --login-idle 86400 --fail-delay 3000 --keep-records 10000000 --connections 4294967295 --rotate-at 65536 nowhere
! tacd: nowhere: No such file or directory (os error 2)
status 4
