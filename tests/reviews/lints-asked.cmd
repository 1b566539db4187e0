# A level of shells that don't start.
file policy
group ops
priv 15
permit show .*
user bob in ops
login x

$ tacd lint policy
line 2 column 6: no shell starts here: none of its users is permitted the empty line, as by 'permit ()'
status 5

file policy
group ops
priv 15
permit ()
permit show .*
user bob in ops
login x

$ tacd lint policy

file policy
user bob
|  priv 0|
login x

$ tacd lint policy
line 2 column 8: no shell starts here: none of its users is permitted the empty line, as by 'permit ()'
status 5

# One of its users may start one. The other's login is for nothing.
file policy
group ops
priv 15
user bob in ops
login x
permit ()
user eve in ops
login x

$ tacd lint policy
line 6 column 6: no shell starts here: none of its users is permitted the empty line, as by 'permit ()'
status 5

file policy
group ops
permit .*
user bob in ops
login x
deny ()
priv 1

$ tacd lint policy
line 1 column 7: no shell starts here: none of its users is permitted the empty line, as by 'permit ()'
line 6 column 6: no shell starts here: none of its users is permitted the empty line, as by 'permit ()'
status 5

# Each level is asked about; a group without users isn't.
file policy
group all
priv 1
group ops in all
priv 15
user bob in ops
login x
priv 7
group core
priv 15
group edge in core

$ tacd lint policy
line 2 column 6: no shell starts here: none of its users is permitted the empty line, as by 'permit ()'
line 4 column 6: no shell starts here: none of its users is permitted the empty line, as by 'permit ()'
line 7 column 6: no shell starts here: none of its users is permitted the empty line, as by 'permit ()'
line 10 column 7: nobody is in this group: is that meant?
status 5

# A login for shells that don't start, once along a chain.
file policy
group all
group ops in all
permit show .*
user bob in ops
login x
user eve in all
login x

$ tacd lint policy
line 1 column 7: no shell starts here: none of its users is permitted the empty line, as by 'permit ()'
status 5

file policy
user bob
login x
permit show .*
user eve
login x
permit .*

$ tacd lint policy
line 1 column 6: no shell starts here: none of its users is permitted the empty line, as by 'permit ()'
status 5

# Nobody logs in by it, or it is for another service.
file policy
group ops
permit show .*
user bob in ops
enable x

$ tacd lint policy
line 3 column 6: this user has no login: is that meant?
status 5

file policy
policy 3
group ops
service junos-exec
user bob in ops
login x
user eve in ops
login x

$ tacd lint policy

file policy
policy 3
group ops
user bob in ops
login x
service junos-exec
user eve in ops
login x

$ tacd lint policy
line 2 column 7: no shell starts here: none of its users is permitted the empty line, as by 'permit ()'
status 5

file policy
policy 3
user bob
login x
refuse junos-exec

$ tacd lint policy

file policy
policy 3
user bob
login-hash $6$saltsalt$temoAzB1LMUGfs39YsEHhlSSY8ud5tjHcrE1ZINzi8TsesBqqjufdtA7fVhnojTHlBhKZVF0Q9wxWAcE707Cb0

$ tacd lint policy
line 2 column 6: no shell starts here: none of its users is permitted the empty line, as by 'permit ()'
status 5

# Whoever enables has any level.
file policy
policy 3
group ops
priv 14
permit ()
user bob in ops
login x
enable y
user eve in ops
login x
|  enable-hash $6$saltsalt$temoAzB1LMUGfs39YsEHhlSSY8ud5tjHcrE1ZINzi8TsesBqqjufdtA7fVhnojTHlBhKZVF0Q9wxWAcE707Cb0|

$ tacd lint policy
line 7 column 8: enabling gives any level, whatever 'priv' says: is that meant?
line 10 column 15: enabling gives any level, whatever 'priv' says: is that meant?
status 5

# The nearest level counts, the highest isn't asked about, and a login isn't.
file policy
group ops
priv 1
permit ()
user bob in ops
login x
enable y
priv 15
user eve in ops
login x
user ann
login x
enable y
permit ()

$ tacd lint policy

file policy
group ops
priv 15
permit ()
user bob in ops
login x
priv 2
enable y

$ tacd lint policy
line 7 column 8: enabling gives any level, whatever 'priv' says: is that meant?
status 5

file policy
group ops
priv 1
permit ()
user bob in ops
login x
enable $6$x

$ tacd lint policy
line 6 column 8: enabling gives any level, whatever 'priv' says: is that meant?
line 6 column 8: this text itself is the password: is a hash meant, as after 'login-hash'?
status 5

# The name that tac_plus has for all other users.
file policy
user DEFAULT
login x
permit ()

$ tacd lint policy
line 1 column 6: tac_plus has this name for all other users, and here it is one user's: is that meant?
status 5

file policy
group ops
permit ()
|  user DEFAULT in ops|

$ tacd lint policy
line 3 column 8: tac_plus has this name for all other users, and here it is one user's: is that meant?
line 3 column 8: this user has no login: is that meant?
status 5

file policy
group DEFAULT
permit ()
user default in DEFAULT
login x
user DEFAULT1 in DEFAULT
login x
user EFAULT in DEFAULT
login x

$ tacd lint policy

# Secrets and patterns in quotes.
file policy
user bob
login "secret"
enable 'x y'
permit ()
permit "exit <cr>"
deny 'show .*'
permit ping <cr>

$ tacd lint policy
line 2 column 7: the quotes round it are part of it: are they meant?
line 3 column 8: the quotes round it are part of it: are they meant?
line 5 column 8: the quotes round it are part of it: are they meant?
line 5 column 19: other rules end in ' <cr>': is it meant that this one doesn't?
line 6 column 6: the quotes round it are part of it: are they meant?
line 6 column 15: other rules end in ' <cr>': is it meant that this one doesn't?
status 5

file policy
user bob
login "
enable 'x"
permit ()
permit ("|') <cr>
permit exit "x" <cr>
permit ".*
|permit 'a' .*|

$ tacd lint policy

file policy
user bob
login ""
enable ''
permit ()

$ tacd lint policy
line 2 column 7: the quotes round it are part of it: are they meant?
line 3 column 8: the quotes round it are part of it: are they meant?
status 5

# Abbreviations that IOS expands before it asks.
file policy
user bob
login x
permit ()
permit conf t( <cr>)?
permit config t( <cr>)?
permit configure t( <cr>)?
permit conf( <cr>)?
permit config( <cr>)?
permit sh run( <cr>)?
permit show run( <cr>)?
permit show start( <cr>)?
permit show ver( <cr>)?
permit show int( <cr>)?
permit show ip int( <cr>)?
permit show log( <cr>)?
permit sh( <cr>)?
permit int( <cr>)?
permit no int( <cr>)?
permit wr mem( <cr>)?
permit write mem( <cr>)?
permit wr( <cr>)?
permit copy run start( <cr>)?
permit term len( <cr>)?
permit terminal len( <cr>)?
permit term( <cr>)?
permit no shut( <cr>)?
permit shut( <cr>)?
permit desc( <cr>)?
permit deb( <cr>)?
permit undeb( <cr>)?
permit trace( <cr>)?

$ tacd lint policy
line 4 column 8: Cisco IOS expands 'conf t' to 'configure terminal' before it asks: is that meant?
line 5 column 8: Cisco IOS expands 'config t' to 'configure terminal' before it asks: is that meant?
line 6 column 8: Cisco IOS expands 'configure t' to 'configure terminal' before it asks: is that meant?
line 7 column 8: Cisco IOS expands 'conf' to 'configure' before it asks: is that meant?
line 8 column 8: Cisco IOS expands 'config' to 'configure' before it asks: is that meant?
line 9 column 8: Cisco IOS expands 'sh run' to 'show running-config' before it asks: is that meant?
line 10 column 8: Cisco IOS expands 'show run' to 'show running-config' before it asks: is that meant?
line 11 column 8: Cisco IOS expands 'show start' to 'show startup-config' before it asks: is that meant?
line 12 column 8: Cisco IOS expands 'show ver' to 'show version' before it asks: is that meant?
line 13 column 8: Cisco IOS expands 'show int' to 'show interfaces' before it asks: is that meant?
line 14 column 8: Cisco IOS expands 'show ip int' to 'show ip interface' before it asks: is that meant?
line 15 column 8: Cisco IOS expands 'show log' to 'show logging' before it asks: is that meant?
line 16 column 8: Cisco IOS expands 'sh' to 'show' before it asks: is that meant?
line 17 column 8: Cisco IOS expands 'int' to 'interface' before it asks: is that meant?
line 18 column 8: Cisco IOS expands 'no int' to 'no interface' before it asks: is that meant?
line 19 column 8: Cisco IOS expands 'wr mem' to 'write memory' before it asks: is that meant?
line 20 column 8: Cisco IOS expands 'write mem' to 'write memory' before it asks: is that meant?
line 21 column 8: Cisco IOS expands 'wr' to 'write' before it asks: is that meant?
line 22 column 8: Cisco IOS expands 'copy run start' to 'copy running-config startup-config' before it asks: is that meant?
line 23 column 8: Cisco IOS expands 'term len' to 'terminal length' before it asks: is that meant?
line 24 column 8: Cisco IOS expands 'terminal len' to 'terminal length' before it asks: is that meant?
line 25 column 8: Cisco IOS expands 'term' to 'terminal' before it asks: is that meant?
line 26 column 8: Cisco IOS expands 'no shut' to 'no shutdown' before it asks: is that meant?
line 27 column 8: Cisco IOS expands 'shut' to 'shutdown' before it asks: is that meant?
line 28 column 8: Cisco IOS expands 'desc' to 'description' before it asks: is that meant?
line 29 column 8: Cisco IOS expands 'deb' to 'debug' before it asks: is that meant?
line 30 column 8: Cisco IOS expands 'undeb' to 'undebug' before it asks: is that meant?
line 31 column 8: Cisco IOS expands 'trace' to 'traceroute' before it asks: is that meant?
status 5

# What they are expanded to, and what only begins so.
file policy
user bob
login x
permit ()
permit configure terminal( <cr>)?
permit configure( <cr>)?
permit show running-config( <cr>)?
permit show startup-config( <cr>)?
permit show version( <cr>)?
permit show interfaces( <cr>)?
permit show ip interface( <cr>)?
permit show logging( <cr>)?
permit show( <cr>)?
permit interface( <cr>)?
permit no interface( <cr>)?
permit write memory( <cr>)?
permit write( <cr>)?
permit copy running-config startup-config( <cr>)?
permit terminal length( <cr>)?
permit terminal( <cr>)?
permit no shutdown( <cr>)?
permit shutdown( <cr>)?
permit description( <cr>)?
permit debug( <cr>)?
permit undebug( <cr>)?
permit traceroute( <cr>)?

$ tacd lint policy

file policy
user bob
login x
permit ()
permit conf(igure)? t( <cr>)?
permit (conf|int) .*
permit show run.*
permit show interfaces .*
permit no interface .*
permit integer .*
permit config-register .*
permit copy run(ning-config)? start( <cr>)?
permit do conf t <cr>
permit SH .*
permit sh[ow]+ .*

$ tacd lint policy

# The longest is told, wherever the pattern goes on, of each rule.
file policy
user bob
login x
permit ()
permit sh .*
deny sh run .*
deny sh version <cr>
permit show ip int brief <cr>
|  permit int|
permit conf( .*)?
permit copy run start

$ tacd lint policy
line 4 column 8: Cisco IOS expands 'sh' to 'show' before it asks: is that meant?
line 5 column 6: Cisco IOS expands 'sh run' to 'show running-config' before it asks: is that meant?
line 5 column 6: this rule decides no line: all that it fits is decided by earlier rules
line 6 column 6: Cisco IOS expands 'sh' to 'show' before it asks: is that meant?
line 6 column 6: this rule decides no line: all that it fits is decided by earlier rules
line 7 column 8: Cisco IOS expands 'show ip int' to 'show ip interface' before it asks: is that meant?
line 8 column 10: Cisco IOS expands 'int' to 'interface' before it asks: is that meant?
line 8 column 13: other rules end in ' <cr>': is it meant that this one doesn't?
line 9 column 8: Cisco IOS expands 'conf' to 'configure' before it asks: is that meant?
line 10 column 8: Cisco IOS expands 'copy run start' to 'copy running-config startup-config' before it asks: is that meant?
line 10 column 22: other rules end in ' <cr>': is it meant that this one doesn't?
status 5
