# What is wrong with a name, at the byte that may not stand there.
file policy
policy 3
user b/b
|  group #ops|
user bob in "ops"
user "bob"
group a,b in c,d
user bob in ops;

$ tacd lint policy
line 2 column 7: refused: 2 BadName: this byte may not stand in a name: A-Z a-z 0-9 _ - . @ may
line 3 column 9: refused: 2 BadName: this byte may not stand in a name: A-Z a-z 0-9 _ - . @ may
line 4 column 13: refused: 2 BadName: this byte may not stand in a name: A-Z a-z 0-9 _ - . @ may
line 5 column 6: refused: 2 BadName: this byte may not stand in a name: A-Z a-z 0-9 _ - . @ may
line 6 column 8: refused: 2 BadName: this byte may not stand in a name: A-Z a-z 0-9 _ - . @ may
line 7 column 16: refused: 2 BadName: this byte may not stand in a name: A-Z a-z 0-9 _ - . @ may
status 1

file policy
|group |
|user a in |
user aaaaaaaaaaaaaaaaaaaaaaaaaaaaaaaab
user aaaaaaaaaaaaaaaaaaaaaaaaaaaaaaaa in aaaaaaaaaaaaaaaaaaaaaaaaaaaaaaaab
group aaaaaaaaaaaaaaaaaaaaaaaaaaaaaaaa/

$ tacd lint policy
line 1 column 7: refused: 2 BadName: a name is missing: words are set apart by one space
line 2 column 11: refused: 2 BadName: a name is missing: words are set apart by one space
line 3 column 6: refused: 2 BadName: a name has at most 32 bytes
line 4 column 42: refused: 2 BadName: a name has at most 32 bytes
line 5 column 39: refused: 2 BadName: this byte may not stand in a name: A-Z a-z 0-9 _ - . @ may
status 1

file policy
policy 3
user bob
service a/b/c
refuse a/
service /a b=c
service shell/x y=z
|service |
service a:b c=d
refuse junos-exec!
service aaaaaaaaaaaaaaaaaaaaaaaaaaaaaaaab

$ tacd lint policy
line 3 column 9: refused: 2 BadName: a service is NAME or NAME/PROTOCOL, and 'shell' has no protocol
line 4 column 8: refused: 2 BadName: a service is NAME or NAME/PROTOCOL, and 'shell' has no protocol
line 5 column 9: refused: 2 BadName: a service is NAME or NAME/PROTOCOL, and 'shell' has no protocol
line 6 column 9: refused: 2 BadName: a service is NAME or NAME/PROTOCOL, and 'shell' has no protocol
line 7 column 9: refused: 2 BadName: a name is missing: words are set apart by one space
line 8 column 10: refused: 2 BadName: this byte may not stand in a name: A-Z a-z 0-9 _ - . @ may
line 9 column 18: refused: 2 BadName: this byte may not stand in a name: A-Z a-z 0-9 _ - . @ may
line 10 column 9: refused: 2 BadName: a service is NAME or NAME/PROTOCOL, and 'shell' has no protocol
status 1

# What is wrong with a value.
file policy
policy 3
user bob
|login |
enable xxxxxxxxxxxxxxxxxxxxxxxxxxxxxxxxxxxxxxxxxxxxxxxxxxxxxxxxxxxxxxxxxxxxxxxxxxxxxxxxxxxxxxxxxxxxxxxxxxxxxxxxxxxxxxxxxxxxxxxxxxxxxxxxx
login-hash "$6$saltsalt$temoAzB1LMUGfs39YsEHhlSSY8ud5tjHcrE1ZINzi8TsesBqqjufdtA7fVhnojTHlBhKZVF0Q9wxWAcE707Cb0"
enable-hash $1$abc$def
priv 16
priv x
|priv |
|  priv 15th|

$ tacd lint policy
line 3 column 7: refused: 6 BadValue: a password has 1 to 128 symbols
line 4 column 8: refused: 6 BadValue: a password has 1 to 128 symbols
line 5 column 12: refused: 6 BadValue: only a hash that 'openssl passwd -6' makes is taken, without quotes
line 6 column 13: refused: 6 BadValue: only a hash that 'openssl passwd -6' makes is taken, without quotes
line 7 column 6: refused: 6 BadValue: a level is a number from 0 to 15
line 8 column 6: refused: 6 BadValue: a level is a number from 0 to 15
line 9 column 6: refused: 6 BadValue: a level is a number from 0 to 15
line 10 column 8: refused: 6 BadValue: a level is a number from 0 to 15
status 1

file policy
policy 3
user bob
service shell priv-lvl=15
service shell priv-lvl*1
service shell priv-lvl
service x priv-lvl
service x a b=c
service x =c
service x a=xxxxxxxxxxxxxxxxxxxxxxxxxxxxxxxxxxxxxxxxxxxxxxxxxxxxxxxxxxxxxxxxxxxxxxxxxxxxxxxxxxxxxxxxxxxxxxxxxxxxxxxxxxxxxxxxxxxxxxxxxxxxxxxxxxxxxxxxxxxxxxxxxxxxxxxxxxxxxxxxxxxxxxxxxxxxxxxxxxxxxxxxxxxxxxxxxxxxxxxxxxxxxxxxxxxxxxxxxxxxxxxxxxxxxxxxxxxxxxxxxxxxxxxxxxxxxx
refuse shell

$ tacd lint policy
line 3 column 15: refused: 6 BadValue: the level of a shell is set by 'priv N'
line 4 column 15: refused: 6 BadValue: the level of a shell is set by 'priv N'
line 5 column 15: refused: 6 BadValue: an attribute is NAME=VALUE or NAME*VALUE, of at most 255 symbols
line 6 column 11: refused: 6 BadValue: an attribute is NAME=VALUE or NAME*VALUE, of at most 255 symbols
line 7 column 11: refused: 6 BadValue: an attribute is NAME=VALUE or NAME*VALUE, of at most 255 symbols
line 8 column 11: refused: 6 BadValue: an attribute is NAME=VALUE or NAME*VALUE, of at most 255 symbols
line 9 column 11: refused: 6 BadValue: an attribute is NAME=VALUE or NAME*VALUE, of at most 255 symbols
line 10 column 8: refused: 6 BadValue: a shell is refused by a rule, as by 'deny ()'
status 1

# What is said of no subject.
file policy
policy 3
login x
|  priv 15|
service x a=b
refuse x
enable-hash $6$saltsalt$temoAzB1LMUGfs39YsEHhlSSY8ud5tjHcrE1ZINzi8TsesBqqjufdtA7fVhnojTHlBhKZVF0Q9wxWAcE707Cb0
permit show .*
user bob
login x

$ tacd lint policy
line 2 column 1: refused: 4 NoSubject: no line 'group NAME' or 'user NAME' stands before it
line 3 column 3: refused: 4 NoSubject: no line 'group NAME' or 'user NAME' stands before it
line 4 column 1: refused: 4 NoSubject: no line 'group NAME' or 'user NAME' stands before it
line 5 column 1: refused: 4 NoSubject: no line 'group NAME' or 'user NAME' stands before it
line 6 column 1: refused: 4 NoSubject: no line 'group NAME' or 'user NAME' stands before it
line 7 column 1: refused: 4 NoSubject: no line 'group NAME' or 'user NAME' stands before it
status 1
