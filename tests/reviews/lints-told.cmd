# What a pattern of another program would mean.
file policy
user bob
login x
permit ^show <cr>
permit ()

$ tacd lint policy
line 3 column 8: '^' is a symbol here, and a pattern fits whole lines: is it meant?
status 5

file policy
user bob
login x
permit exit <cr>
|  deny show$|
permit ()

$ tacd lint policy
line 4 column 12: '$' is a symbol here, and a pattern fits whole lines: is it meant?
status 5

file policy
user bob
login x
permit vlan \d <cr>
permit ()

$ tacd lint policy
line 3 column 13: '\d' is the letter d here: is a digit meant, as '[0-9]'?
status 5

file policy
user bob
login x
permit show \w+ <cr>
permit ()

$ tacd lint policy
line 3 column 13: '\w' is the letter w here: is '[A-Za-z0-9_]' meant?
status 5

file policy
user bob
login x
permit show\svlan <cr>
permit ()

$ tacd lint policy
line 3 column 12: '\s' is the letter s here: is a space meant?
status 5

file policy
user bob
login x
permit show [[:alpha:]]+ <cr>
permit ()

$ tacd lint policy
line 3 column 13: '[[:' begins a class of these symbols here: is a range meant, as '[a-z]'?
status 5

file policy
user bob
login x
permit vlan [0-9]{1,3} <cr>
permit ()

$ tacd lint policy
line 3 column 18: '{' and '}' are symbols here: is a count meant, as in 'policy 2'?
status 5

file policy
policy 2
user bob
login x
permit vlan [0-9]{1,3} <cr>
permit ()

$ tacd lint policy

# Spaces at the ends of a value.
file policy
user bob
login  x
permit ()

$ tacd lint policy
line 2 column 7: it begins with a space: is that meant?
status 5

file policy
user bob
login x
|enable y |
permit ()

$ tacd lint policy
line 3 column 9: it ends with a space: is that meant?
status 5

file policy
user bob
login x
permit  show <cr>
permit ()

$ tacd lint policy
line 3 column 8: it begins with a space: is that meant?
status 5

file policy
user bob
login x
|permit show <cr> |
permit ()

$ tacd lint policy
line 3 column 17: it ends with a space: is that meant?
status 5

# How lines end.
file policy
user bob
login x
permit show <cr>
permit exit
permit ()

$ tacd lint policy
line 4 column 12: other rules end in ' <cr>': is it meant that this one doesn't?
status 5

file policy
user bob
login x
permit show .*
permit exit
permit ping
permit ()

$ tacd lint policy
line 1 column 1: no rule ends in ' <cr>', with which Cisco IOS ends each line: is that meant?
status 5

# What is asked of a quoted `\\`, of dots, of few repeats, of a comment, and in a class.
file policy
policy 2
user bob
login x
permit exit <cr>
permit dir c:\\$
permit show \.*
permit show[^x]{0,3}
permit show # all <cr>
permit vlan [\d] <cr>
permit ()

$ tacd lint policy
line 5 column 16: '$' is a symbol here, and a pattern fits whole lines: is it meant?
line 6 column 16: other rules end in ' <cr>': is it meant that this one doesn't?
line 7 column 21: other rules end in ' <cr>': is it meant that this one doesn't?
line 8 column 12: '#' is a symbol here, and begins no comment after a rule: is it meant?
line 9 column 14: '\d' is the letter d here: is a digit meant, as '[0-9]'?
status 5

# What fits ` <cr>` isn't asked for it, and a class isn't asked about counts and comments.
file policy
policy 2
user bob
login x
permit exit <cr>
permit show( <cr>){0,1}
permit dir[^x]{0,30}
permit (ping|vlan [ # ]x .+)?
permit a \# b <cr>

$ tacd lint policy

file policy
user bob
login x
permit vlan [{1}] <cr>
permit ()

$ tacd lint policy

# Subjects that are probably not meant so.
file policy

$ tacd lint policy
line 1 column 1: the policy is empty, and so permits nothing: is that meant?
status 5

file policy
|# nobody yet|

$ tacd lint policy
line 1 column 1: the policy is empty, and so permits nothing: is that meant?
status 5

file policy
user bob
login x
permit ()
|  group ops|

$ tacd lint policy
line 4 column 9: nobody is in this group: is that meant?
status 5

file policy
group ops
user bob in ops
enable x

$ tacd lint policy
line 2 column 6: this user has no login: is that meant?
status 5

file policy
group ops
permit show .*
||
permit show vlan <cr>
user bob in ops
login x
user eve in ops
login y

$ tacd lint policy
line 1 column 7: no shell starts here: none of its users is permitted the empty line, as by 'permit ()'
line 4 column 8: this rule decides no line: all that it fits is decided by earlier rules
status 5

# What is not asked.
file policy
user bob
login x
permit ()

$ tacd lint policy

file policy
group ops
permit ()
permit show( <cr>)?
user bob in ops
login x
permit .*

$ tacd lint policy

file policy
user bob
login ^\d$
permit (show|\$|[\^$]|\\d|a{b}|[a[:]) <cr>
permit ()

$ tacd lint policy

# What is told of hashes, and of texts that look like one.
file policy
policy 3
user bob
login-hash $6$rounds=20001$saltsalt$temoAzB1LMUGfs39YsEHhlSSY8ud5tjHcrE1ZINzi8TsesBqqjufdtA7fVhnojTHlBhKZVF0Q9wxWAcE707Cb0
enable-hash $6$rounds=20000$saltsalt$temoAzB1LMUGfs39YsEHhlSSY8ud5tjHcrE1ZINzi8TsesBqqjufdtA7fVhnojTHlBhKZVF0Q9wxWAcE707Cb0
permit ()

$ tacd lint policy
line 3 column 12: over 20000 rounds: each login takes a processor for 8 milliseconds or more
status 5

file policy
user bob
login $6$x
|  enable $y$|
permit ()
user eve
login $6
enable $$x$
permit ()

$ tacd lint policy
line 2 column 7: this text itself is the password: is a hash meant, as after 'login-hash'?
line 3 column 10: this text itself is the password: is a hash meant, as after 'login-hash'?
status 5
