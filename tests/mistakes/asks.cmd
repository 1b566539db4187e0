$ tacd ask
! error: 'tacd ask' requires a subcommand but one was not provided
!   [subcommands: login, command, shell, service, record, help]
!
! Usage: tacd ask [OPTIONS] <--key-file <PATH>|--key <K>|--clear> <COMMAND>
!
! For more information, try '--help'.
status 2

$ tacd ask shell bob
! error: the following required arguments were not provided:
!   <--key-file <PATH>|--key <K>|--clear>
!
! Usage: tacd ask <--key-file <PATH>|--key <K>|--clear> <COMMAND>
!
! For more information, try '--help'.
status 2

$ tacd ask --clear --key k shell bob
! error: the argument '--clear' cannot be used with '--key <K>'
!
! Usage: tacd ask <--key-file <PATH>|--key <K>|--clear> <COMMAND>
!
! For more information, try '--help'.
status 2

$ tacd ask --key 'é' shell bob
! error: invalid value for '--key <K>': it is not 1 to 128 printable ASCII characters
!
! For more information, try '--help'.
status 2

$ tacd ask --key k --to :49 shell bob
! error: invalid value ':49' for '--to <HOST[:PORT]>': it is no host and port
!
! For more information, try '--help'.
status 2

$ tacd ask --key k --to 192.0.2.1:0 shell bob
! error: invalid value '192.0.2.1:0' for '--to <HOST[:PORT]>': it is no host and port
!
! For more information, try '--help'.
status 2

$ tacd ask --key k --to '[::1' shell bob
! error: invalid value '[::1' for '--to <HOST[:PORT]>': it is no host and port
!
! For more information, try '--help'.
status 2

$ tacd ask --key k --to '[192.0.2.1]49' shell bob
! error: invalid value '[192.0.2.1]49' for '--to <HOST[:PORT]>': it is no host and port
!
! For more information, try '--help'.
status 2

$ tacd ask --key k --to ::1:65536 shell bob
! error: invalid value '::1:65536' for '--to <HOST[:PORT]>': it is no host and port
!
! For more information, try '--help'.
status 2

$ tacd ask --key k --timeout 0 shell bob
! error: invalid value '0' for '--timeout <SECONDS>': 0 is not in 1..=3600
!
! For more information, try '--help'.
status 2

$ tacd ask --key k command bob
! error: the following required arguments were not provided:
!   <WORD>...
!
! Usage: tacd ask <--key-file <PATH>|--key <K>|--clear> command <USER> <WORD>...
!
! For more information, try '--help'.
status 2

$ tacd ask --key k login bob --pap --chap
! error: the argument '--pap' cannot be used with '--chap'
!
! Usage: tacd ask <--key-file <PATH>|--key <K>|--clear> login --pap <USER>
!
! For more information, try '--help'.
status 2

$ tacd ask --key k record begin bob show
! error: invalid value 'begin' for '<KIND>'
!   [possible values: start, stop, watchdog, update]
!
! For more information, try '--help'.
status 2
