file input
key k
run

$ tacd replay < input

file input
key k
group ops
permit show .*
user bob in ops
run
open 1
packet 1 c0020100000000010000003606010101030400030d080f626f6274747930736572766963653d7368656c6c636d643d73686f77636d642d6172673d76657273696f6e
open 1
close 1

$ tacd replay < input
reply 1 c00202000000000100000006010000000000
closed 1
fault line 9 BadCommand
status 1

# Of nothing.
$ tacd replay
fault line 1 BadKey
status 1

$ tacd replay < input > /dev/full
! tacd: the output could not be written
status 4

file asks
key k
run
open 1
bytes 1 d0010100fedcba9800000000

# Where the lines of a log can't be written, the replies were.
$ tacd replay --log /dev/full < asks
closed 1
! tacd: /dev/full: its lines could not be written
status 4

file input
key k
run␃

# Nothing is to be written here.
$ tacd replay < input > /dev/full
