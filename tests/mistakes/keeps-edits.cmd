# Without operators there are no edits to keep.
$ tacd serve --port 1 --keep-edits kept --key k policy
! error: the following required arguments were not provided:
!   --console <PATH>
!
! Usage: tacd serve --console <PATH> --keep-edits <PATH> <--port <P>|--proxy <PATH>> <--key <K>|--key-file <PATH>|--devices <PATH>> <FILE>
!
! For more information, try '--help'.
status 2
