$ tacd serve
! error: the following required arguments were not provided:
!   <--port <P>|--proxy <PATH>>
!   <--key <K>|--key-file <PATH>|--devices <PATH>>
!   <FILE>
!
! Usage: tacd serve <--port <P>|--proxy <PATH>> <--key <K>|--key-file <PATH>|--devices <PATH>> <FILE>
!
! For more information, try '--help'.
status 2

$ tacd
! error: 'tacd' requires a subcommand but one was not provided
!   [subcommands: serve, console, ask, check, lint, diff, why, given, test, devices, import, replay, version, help]
!
! Usage: tacd <COMMAND>
!
! For more information, try '--help'.
status 2

$ tacd show
! error: unrecognized subcommand 'show'
!
! Usage: tacd <COMMAND>
!
! For more information, try '--help'.
status 2

$ tacd replay script
! error: unexpected argument 'script' found
!
! Usage: tacd replay [OPTIONS]
!
! For more information, try '--help'.
status 2

$ tacd replay --fast
! error: unexpected argument '--fast' found
!
! Usage: tacd replay [OPTIONS]
!
! For more information, try '--help'.
status 2

$ tacd check
! error: the following required arguments were not provided:
!   <FILE>
!
! Usage: tacd check <FILE>
!
! For more information, try '--help'.
status 2

$ tacd check policy other
! error: unexpected argument 'other' found
!
! Usage: tacd check <FILE>
!
! For more information, try '--help'.
status 2
