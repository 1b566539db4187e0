# Without a log there is nothing to sync.
$ tacd serve --port 1 --sync --key k policy
! error: the following required arguments were not provided:
!   --log <PATH>
!
! Usage: tacd serve --log <PATH> --sync <--port <P>|--proxy <PATH>> <--key <K>|--key-file <PATH>|--devices <PATH>> <FILE>
!
! For more information, try '--help'.
status 2
