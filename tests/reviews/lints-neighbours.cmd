# What is next to a habit, and isn't asked about. Of signs at a pattern's ends.
file policy
policy 2
user bob
login x
permit ()
permit a^b <cr>
permit \^show <cr>
permit a$ <cr>
permit $a <cr>
permit (^a|b$) <cr>

$ tacd lint policy

# A last `$` or space after a `\` is meant, so that the rule lacks ` <cr>`. After `\\` it isn't.
file policy
policy 2
user bob
login x
permit ()
permit exit <cr>
permit show\$
|permit show\ |
|permit show\\ |

$ tacd lint policy
line 6 column 14: other rules end in ' <cr>': is it meant that this one doesn't?
line 7 column 14: other rules end in ' <cr>': is it meant that this one doesn't?
line 8 column 14: it ends with a space: is that meant?
status 5

# Letters after a `\`, in classes too; other letters, and a `\` that is meant.
file policy
policy 2
user bob
login x
permit ()
permit [\w] <cr>
permit [a\s] <cr>
permit \\w\\s <cr>
permit [\\d] <cr>
permit \.\d <cr>

$ tacd lint policy
line 5 column 9: '\w' is the letter w here: is '[A-Za-z0-9_]' meant?
line 6 column 10: '\s' is the letter s here: is a space meant?
line 9 column 10: '\d' is the letter d here: is a digit meant, as '[0-9]'?
status 5

# Braces of version 1 that are no count, and such that are one.
file policy
user bob
login x
permit ()
permit a{1,3 <cr>
permit a{,3} <cr>
permit a{1-3} <cr>
permit a{} <cr>
permit \{1} <cr>

$ tacd lint policy

file policy
user bob
login x
permit ()
permit a{0} <cr>
permit a{12,} <cr>

$ tacd lint policy
line 4 column 9: '{' and '}' are symbols here: is a count meant, as in 'policy 2'?
line 5 column 9: '{' and '}' are symbols here: is a count meant, as in 'policy 2'?
status 5

# A `#` without a space on either side, and a class that begins with `[` alone. A count is passed over.
file policy
policy 2
user bob
login x
permit ()
permit a# b <cr>
permit a #b <cr>
permit [[a]x+ <cr>
permit \[[:] <cr>
permit a{1,3}\d <cr>

$ tacd lint policy
line 9 column 14: '\d' is the letter d here: is a digit meant, as '[0-9]'?
status 5

# A secret of quotes of two kinds, and one that begins with a quote alone.
file policy
user bob
login "x'
enable x"
permit ()

$ tacd lint policy

# Texts that look almost like hashes.
file policy
user bob
login $6-$x
enable x$6$
permit ()
user eve
login $6x9$
enable 6$x
permit ()

$ tacd lint policy
line 6 column 7: this text itself is the password: is a hash meant, as after 'login-hash'?
status 5

# Spaces within a secret and within an attribute.
file policy
policy 3
user bob
login a b
service x a=b c
|service x a= |
permit ()

$ tacd lint policy
line 5 column 13: it ends with a space: is that meant?
status 5

# What a rule's last atom is: after a `\`, with a `\` in its class, and in parentheses.
file policy
policy 2
user bob
login x
permit ()
permit exit <cr>
permit show\)
permit a[\]]*
permit b[^\]]*
permit b[^)]*
permit h <cr>{0,1}
permit c([^x]+)?
permit d(.{0,5})
permit e(.{0,4})
permit f( <cr>|x)
permit g( <cr>)

$ tacd lint policy
line 6 column 14: other rules end in ' <cr>': is it meant that this one doesn't?
line 7 column 14: other rules end in ' <cr>': is it meant that this one doesn't?
line 13 column 17: other rules end in ' <cr>': is it meant that this one doesn't?
line 14 column 18: other rules end in ' <cr>': is it meant that this one doesn't?
status 5

# In version 1 braces are symbols.
file policy
user bob
login x
permit ()
permit exit <cr>
permit show <cr>{
permit .*{
permit show{0,5}

$ tacd lint policy
line 5 column 18: other rules end in ' <cr>': is it meant that this one doesn't?
line 6 column 11: other rules end in ' <cr>': is it meant that this one doesn't?
line 7 column 12: '{' and '}' are symbols here: is a count meant, as in 'policy 2'?
line 7 column 17: other rules end in ' <cr>': is it meant that this one doesn't?
status 5

# Where no rule needs ` <cr>`, and where one does.
file policy
user bob
login x
permit ()
permit show .*

$ tacd lint policy

file policy
user bob
login x
permit ()
permit exit

$ tacd lint policy
line 1 column 1: no rule ends in ' <cr>', with which Cisco IOS ends each line: is that meant?
status 5

# A rule that decides nothing for a user below its group, and one that decides nothing for its owner.
file policy
group ops
permit ()
permit show <cr>
user bob in ops
login x
permit .*
permit show .*
user eve in ops
login x

$ tacd lint policy
line 7 column 8: this rule decides no line: all that it fits is decided by earlier rules
status 5

# Names: the last byte that may stand in one, the longest, and the space after one.
file policy
policy 3
user A-Z_az09.@-
user aaaaaaaaaaaaaaaaaaaaaaaaaaaaaaaa
user x/
group y in /
user .@_-9zZA0a/
service aaaaaaaaaaaaaaaaaaaaaaaaaaaaaaaa/b c=d
service aaaaaaaaaaaaaaaaaaaaaaaaaaaaaaaab/c d=e
service b#c

$ tacd lint policy
line 4 column 7: refused: 2 BadName: this byte may not stand in a name: A-Z a-z 0-9 _ - . @ may
line 5 column 12: refused: 2 BadName: this byte may not stand in a name: A-Z a-z 0-9 _ - . @ may
line 6 column 16: refused: 2 BadName: this byte may not stand in a name: A-Z a-z 0-9 _ - . @ may
line 8 column 9: refused: 2 BadName: a service is NAME or NAME/PROTOCOL, and 'shell' has no protocol
line 9 column 10: refused: 2 BadName: this byte may not stand in a name: A-Z a-z 0-9 _ - . @ may
status 1

# Words: in capitals, at two changes and at half of its bytes, and one further.
file policy
user bob
Policy 2
servi x
sevi x
den x
de x
gro x
g x
PERMIITT x
prmit x

$ tacd lint policy
line 2 column 1: refused: 1 BadLine: no line of a policy begins with this word: is 'policy' meant?
line 3 column 1: refused: 1 BadLine: no line of a policy begins with this word: is 'service' meant?
line 4 column 1: refused: 1 BadLine: no line of a policy begins with this word
line 5 column 1: refused: 1 BadLine: no line of a policy begins with this word: is 'deny' meant?
line 6 column 1: refused: 1 BadLine: no line of a policy begins with this word
line 7 column 1: refused: 1 BadLine: no line of a policy begins with this word
line 8 column 1: refused: 1 BadLine: no line of a policy begins with this word
line 9 column 1: refused: 1 BadLine: no line of a policy begins with this word: is 'permit' meant?
line 10 column 1: refused: 1 BadLine: no line of a policy begins with this word: is 'permit' meant?
status 1

file policy
user bob
enable-hashes x
eenable-hashes x
logiin x
loogiin x
loogiinn x

$ tacd lint policy
line 2 column 1: refused: 1 BadLine: no line of a policy begins with this word: is 'enable-hash' meant?
line 3 column 1: refused: 1 BadLine: no line of a policy begins with this word
line 4 column 1: refused: 1 BadLine: no line of a policy begins with this word: is 'login' meant?
line 5 column 1: refused: 1 BadLine: no line of a policy begins with this word: is 'login' meant?
line 6 column 1: refused: 1 BadLine: no line of a policy begins with this word
status 1

# A level that is given to another service, and is too long.
file policy
policy 3
user bob
service x priv-lvl=xxxxxxxxxxxxxxxxxxxxxxxxxxxxxxxxxxxxxxxxxxxxxxxxxxxxxxxxxxxxxxxxxxxxxxxxxxxxxxxxxxxxxxxxxxxxxxxxxxxxxxxxxxxxxxxxxxxxxxxxxxxxxxxxxxxxxxxxxxxxxxxxxxxxxxxxxxxxxxxxxxxxxxxxxxxxxxxxxxxxxxxxxxxxxxxxxxxxxxxxxxxxxxxxxxxxxxxxxxxxxxxxxxxxxxxxxxxxxxxxxxxxxxx

$ tacd lint policy
line 3 column 11: refused: 6 BadValue: an attribute is NAME=VALUE or NAME*VALUE, of at most 255 symbols
status 1

# Searches: one of `.+`, quoted and classed dots, a count of dots, and the rules of a subject below.
file policy
policy 2
group g
permit a.+b.c
permit a\.*b.c
permit a[.*]b.c
permit a.*
permit a.*[.]\.
permit a.*b(.+)?
permit a.*.{2}
deny .*a.{14}
user u in g
permit .*b.c

$ tacd lint policy
line 2 column 1: refused: TooManyStates: the rules along this chain have over 16384 states
line 3 column 12: a dot after a '.*' may double the states: '.*(vlan|arp).*' takes fewer than two rules
line 9 column 11: a dot after a '.*' may double the states: '.*(vlan|arp).*' takes fewer than two rules
line 10 column 9: a dot after a '.*' may double the states: '.*(vlan|arp).*' takes fewer than two rules
status 1
