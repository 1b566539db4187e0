# A proxy's devices are those of a file.
$ tacd serve --proxy socket --key k policy
! error: the argument '--proxy <PATH>' cannot be used with '--key <K>'
!
! Usage: tacd serve <--port <P>|--proxy <PATH>> <--key <K>|--key-file <PATH>|--devices <PATH>> <FILE>
!
! For more information, try '--help'.
status 2

$ tacd serve --port 1 --proxy socket --key-file key policy
! error: the argument '--proxy <PATH>' cannot be used with '--key-file <PATH>'
!
! Usage: tacd serve <--port <P>|--proxy <PATH>> <--key <K>|--key-file <PATH>|--devices <PATH>> <FILE>
!
! For more information, try '--help'.
status 2

# A server is called somewhere.
$ tacd serve --devices devices policy
! error: the following required arguments were not provided:
!   <--port <P>|--proxy <PATH>>
!
! Usage: tacd serve <--port <P>|--proxy <PATH>> <--key <K>|--key-file <PATH>|--devices <PATH>> <FILE>
!
! For more information, try '--help'.
status 2
