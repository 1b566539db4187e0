# What of a configuration a policy says, and what is told of the rest.
file tac_plus.conf
key = "a key"
host = 192.0.2.1 { key = other prompt = "who? " }
group = ops {
|  default service = permit|
|  service = exec { priv-lvl = 15 optional idletime = 5 }|
|  cmd = show { deny "run|start" permit ^[a-z]{2,3}.*$ }|
}
user = bob { member = ops login = cleartext x
|  expires = "Dec 31 2027"|
}

$ tacd import tac_plus.conf
policy 3
group ops
priv 15
service shell idletime*5
permit ()
deny show .*(run|start).*
permit show [a-z]{2,3}.*
deny show( .*)?
permit .*
user bob in ops
login x
! tac_plus.conf line 1: 'key' is written by '--key-to' or '--devices-to': left out
! tac_plus.conf line 2: 'prompt' has no equal here: left out
! tac_plus.conf line 2: '192.0.2.1' is written by '--devices-to': left out
! tac_plus.conf line 4: 'default service' permits services that nobody lists, which are refused here: left out
! tac_plus.conf line 5: 'exec' refuses mandatory arguments that it doesn't list, which are permitted here: left out
! tac_plus.conf line 6: permit '^[a-z]{2,3}.*$': older expressions have no counts, and take '{' as itself: that reading is left out
! tac_plus.conf line 9: 'expires' has no equal here: left out
status 5

$ tacd import --key-to key --devices-to devices tac_plus.conf > /dev/full
! tac_plus.conf line 2: 'prompt' has no equal here: left out
! tac_plus.conf line 4: 'default service' permits services that nobody lists, which are refused here: left out
! tac_plus.conf line 5: 'exec' refuses mandatory arguments that it doesn't list, which are permitted here: left out
! tac_plus.conf line 6: permit '^[a-z]{2,3}.*$': older expressions have no counts, and take '{' as itself: that reading is left out
! tac_plus.conf line 9: 'expires' has no equal here: left out
! tacd: the output could not be written
status 4

# Where all is said, nothing is told.
file whole.conf
user = bob {
|  login = cleartext blue-lake|
|  cmd = show { deny run permit .* }|
}

$ tacd import whole.conf
policy 2
user bob
login blue-lake
deny show .*run.*
permit show( .*)?

# The empty file is the empty policy.
file empty.conf
# nothing

$ tacd import empty.conf
policy 2

# What was decided isn't left out.
file decided.conf
group = "two words" {
|  cmd = show { permit .* }|
|  cmd = show { deny .* }|
|  service = exec { default attribute = permit optional priv-lvl = 7 }|
|  service = exec { priv-lvl = 9 }|
}
user = bob {
|  member = "two words"|
|  pap = cleartext pebbles|
|  service = exec { default attribute = permit }|
|  default service = deny|
}

$ tacd import decided.conf
policy 2
group line-1
priv 7
permit ()
permit show( .*)?
user bob in line-1
login pebbles
priv 1
permit ()
! decided.conf line 1: 'two words' is no name of a group here, so it is called by its line
! decided.conf line 3: 'show' is a second 'cmd' of this name, and the first decides
! decided.conf line 4: 'exec' is given as mandatory here
! decided.conf line 5: 'exec' is a second 'service' of this name, and the first decides
! decided.conf line 9: 'pap' is the login here, by whichever way
! decided.conf line 10: 'exec' has no 'priv-lvl' and its groups have one: 'priv 1' is written

# A name that is made up is another for each group, and none that stands in the file.
file one-line.conf
group = "a b" { } group = "c d" { } group = line-1-2 { }
user = bob { member = "c d" login = cleartext x }

$ tacd import one-line.conf
policy 2
group line-1
group line-1-3
group line-1-2
user bob in line-1-3
login x
! one-line.conf line 1: 'a b' is no name of a group here, so it is called by its line
! one-line.conf line 1: 'c d' is no name of a group here, so it is called by its line

# The first secret to enable with is the one that counts.
file two-enables.conf
user = bob {
|  login = cleartext x|
|  enable = cleartext one|
|  enable = cleartext one|
|  enable = cleartext two|
}

$ tacd import two-enables.conf
policy 2
user bob
login x
enable one
! two-enables.conf line 5: 'enable' is a second one, and the first counts: left out
status 5

# An address may be spelled in several ways.
file spellings.conf
host = 2001:db8::1 { key = one }
host = 2001:DB8:0::1 { key = two }

$ tacd import --devices-to devices spellings.conf
policy 2
! spellings.conf line 2: '2001:DB8:0::1' is the address of an earlier host: left out
status 5

# A log that goes to syslog is sent there by something else.
file syslog.conf
accounting syslog
logging = local6

$ tacd import syslog.conf
policy 2
! syslog.conf line 1: 'accounting syslog' isn't set here, rsyslog can send on what 'serve --log PATH' writes: left out
! syslog.conf line 2: 'logging' isn't set here, rsyslog can send on what 'serve --log PATH' writes: left out
status 5

# A service without 'default attribute = permit' refuses what it doesn't list, and is told. One with it
# isn't, nor is a second one, which decides nothing, or one that is left out.
file services.conf
group = ops {
|  service = exec { default attribute = deny priv-lvl = 15 }|
|  service = ppp protocol = ip {|
|    default attribute = permit|
|    addr = 192.0.2.7|
|  }|
|  service = ppp protocol = ip { inacl = 7 }|
|  service = slip|
|  { }|
|  service = "a b" { }|
|  service = shell { }|
}
user = bob {
|  member = ops|
|  service = exec { }|
}

$ tacd import services.conf
policy 3
group ops
priv 15
service ppp/ip addr=192.0.2.7
service slip
permit ()
user bob in ops
priv 1
permit ()
! services.conf line 2: 'exec' refuses mandatory arguments that it doesn't list, which are permitted here: left out
! services.conf line 7: 'ppp' is a second 'service' of this name, and the first decides
! services.conf line 8: 'slip' refuses mandatory arguments that it doesn't list, which are permitted here: left out
! services.conf line 10: 'a b' is no service here: left out
! services.conf line 11: 'shell' is asked for as a shell, which 'exec' is: left out
! services.conf line 15: 'exec' has no 'priv-lvl' and its groups have one: 'priv 1' is written
! services.conf line 15: 'exec' refuses mandatory arguments that it doesn't list, which are permitted here: left out
status 5

# Where each service has it, all is said.
file open.conf
user = bob {
|  service = exec { default attribute = permit priv-lvl = 15 }|
|  service = ppp protocol = ip { default attribute = permit }|
}

$ tacd import open.conf
policy 3
user bob
priv 15
service ppp/ip
permit ()

# What older expressions read otherwise is told at its line: counts, classes by name, and what the C
# library knows after a backslash. It is said as the C library reads it, where it can be.
file older.conf
group = ops {
|  cmd = show {|
|    permit a{2}|
|    deny "b{1,2}$"|
|    permit [[:digit:]]|
|    permit "[]a[.x.]]"|
|    permit "[^[=a=]]"|
|    permit \w|
|    permit \Bx|
|    permit \`x|
|    permit (a)\2|
|    permit ^c|
|  }|
|  cmd = clear {|
|    deny \S|
|    permit d{2}|
|  }|
}

$ tacd import older.conf
policy 2
group ops
permit show .*a{2}.*
deny show .*b{1,2}
permit show c.*
deny clear( .*)?
! older.conf line 3: permit 'a{2}': older expressions have no counts, and take '{' as itself: that reading is left out
! older.conf line 4: deny 'b{1,2}$': older expressions have no counts, and take '{' as itself: that reading is left out
! older.conf line 5: permit '[[:digit:]]': older expressions have no classes by name: that reading is left out
! older.conf line 5: permit '[[:digit:]]': no pattern has classes by name, such as '[:alpha:]': left out
! older.conf line 6: permit '[]a[.x.]]': older expressions have no classes by name: that reading is left out
! older.conf line 6: permit '[]a[.x.]]': no pattern has classes by name, such as '[:alpha:]': left out
! older.conf line 7: permit '[^[=a=]]': older expressions have no classes by name: that reading is left out
! older.conf line 7: permit '[^[=a=]]': no pattern has classes by name, such as '[:alpha:]': left out
! older.conf line 8: permit '\w': older expressions take what follows its '\' as itself: that reading is left out
! older.conf line 8: permit '\w': no pattern has this letter after a '\': left out
! older.conf line 9: permit '\Bx': older expressions take what follows its '\' as itself: that reading is left out
! older.conf line 9: permit '\Bx': no pattern has this letter after a '\': left out
! older.conf line 10: permit '\`x': older expressions take what follows its '\' as itself: that reading is left out
! older.conf line 10: permit '\`x': no pattern has this letter after a '\': left out
! older.conf line 11: permit '(a)\2': older expressions take what follows its '\' as itself: that reading is left out
! older.conf line 11: permit '(a)\2': no pattern refers back to a group: left out
! older.conf line 15: deny '\S': older expressions take what follows its '\' as itself: that reading is left out
! older.conf line 15: deny '\S': no pattern has this letter after a '\': the command is denied from here on
status 5

# What both read alike isn't told: a brace after a backslash or in a class, a closing one, a backslash
# in a class, and a colon that no bracket stands before.
file alike.conf
user = bob {
|  login = cleartext x|
|  cmd = show {|
|    permit "a\{2}"|
|    permit [{]|
|    permit []{]|
|    permit [^]{]|
|    permit [\w]|
|    permit "[a:.=]"|
|    permit "[a]:[b]"|
|    permit "\[:c"|
|    permit "(\.|\/)"|
|  }|
}

$ tacd import alike.conf
policy 2
user bob
login x
permit show .*(a\{2\}|[{]|[\]{]|[^\]{]|[\\w]|[a:.=]|[a]:[b]|\[:c|(\.|/)).*

# A '-' after a range means something else to each library.
file ranges.conf
user = bob {
|  login = cleartext x|
|  cmd = show { permit [a-c-] permit [--a] permit [a-c-e] permit [+--0] }|
}

$ tacd import ranges.conf
policy 2
user bob
login x
permit show .*([a-c\-]|[\--a]|[+-\-0]).*
! ranges.conf line 3: permit '[a-c-e]': it has a '[' that begins no class: left out
status 5

# A hash that begins as those that are taken, and isn't one of them, is told as what it is, between
# quotation marks and without.
file hashes.conf
user = u1 { login = des "$6$rounds=1000000$saltsalt$temoAzB1LMUGfs39YsEHhlSSY8ud5tjHcrE1ZINzi8TsesBqqjufdtA7fVhnojTHlBhKZVF0Q9wxWAcE707Cb0" }
user = u2 { login = des "$6$rounds=12345678901$saltsalt$temoAzB1LMUGfs39YsEHhlSSY8ud5tjHcrE1ZINzi8TsesBqqjufdtA7fVhnojTHlBhKZVF0Q9wxWAcE707Cb0" }
user = u3 { login = des "$6$rounds=999$saltsalt$temoAzB1LMUGfs39YsEHhlSSY8ud5tjHcrE1ZINzi8TsesBqqjufdtA7fVhnojTHlBhKZVF0Q9wxWAcE707Cb0" }
user = u4 { login = des "$6$rounds=05000$saltsalt$temoAzB1LMUGfs39YsEHhlSSY8ud5tjHcrE1ZINzi8TsesBqqjufdtA7fVhnojTHlBhKZVF0Q9wxWAcE707Cb0" }
user = u5 { login = des "$6$rounds=$saltsalt$temoAzB1LMUGfs39YsEHhlSSY8ud5tjHcrE1ZINzi8TsesBqqjufdtA7fVhnojTHlBhKZVF0Q9wxWAcE707Cb0" }
user = u6 { login = des "$6$rounds=5000$$temoAzB1LMUGfs39YsEHhlSSY8ud5tjHcrE1ZINzi8TsesBqqjufdtA7fVhnojTHlBhKZVF0Q9wxWAcE707Cb0" }
user = u7 { login = des $6$$temoAzB1LMUGfs39YsEHhlSSY8ud5tjHcrE1ZINzi8TsesBqqjufdtA7fVhnojTHlBhKZVF0Q9wxWAcE707Cb0 }
user = u8 { login = des $6$saltsaltsaltsalt1$temoAzB1LMUGfs39YsEHhlSSY8ud5tjHcrE1ZINzi8TsesBqqjufdtA7fVhnojTHlBhKZVF0Q9wxWAcE707Cb0 }
user = u9 { login = des $6$salt-salt$temoAzB1LMUGfs39YsEHhlSSY8ud5tjHcrE1ZINzi8TsesBqqjufdtA7fVhnojTHlBhKZVF0Q9wxWAcE707Cb0 }
user = u10 { login = des $6$saltsalt$temoAzB1LMUGfs39YsEHhlSSY8ud5tjHcrE1ZINzi8TsesBqqjufdtA7fVhnojTHlBhKZVF0Q9wxWAcE707Cb }
user = u11 { login = des "$6$saltsalt$temoAzB1LMUGfs39YsEHhlSSY8ud5tjHcrE1ZINzi8TsesBqqjufdtA7fVhnojTHlBhKZVF0Q9wxWAcE707Cb0x" }
user = u12 { login = des "$6$saltsalt$+emoAzB1LMUGfs39YsEHhlSSY8ud5tjHcrE1ZINzi8TsesBqqjufdtA7fVhnojTHlBhKZVF0Q9wxWAcE707Cb0" }
user = u13 { login = des $6$saltsalt }
user = good { login = des "$6$rounds=999999$saltsaltsaltsalt$temoAzB1LMUGfs39YsEHhlSSY8ud5tjHcrE1ZINzi8TsesBqqjufdtA7fVhnojTHlBhKZVF0Q9wxWAcE707Cb0" }
user = other { login = des $5$saltsalt$abc }
user = clear { login = cleartext $6$saltsalt }
user = deed { login = cleartext x enable = des "$6$rounds=1000000$saltsalt$temoAzB1LMUGfs39YsEHhlSSY8ud5tjHcrE1ZINzi8TsesBqqjufdtA7fVhnojTHlBhKZVF0Q9wxWAcE707Cb0" }

$ tacd import hashes.conf
policy 3
user u1
user u2
user u3
user u4
user u5
user u6
user u7
user u8
user u9
user u10
user u11
user u12
user u13
user good
login-hash $6$rounds=999999$saltsaltsaltsalt$temoAzB1LMUGfs39YsEHhlSSY8ud5tjHcrE1ZINzi8TsesBqqjufdtA7fVhnojTHlBhKZVF0Q9wxWAcE707Cb0
user other
user clear
login $6$saltsalt
user deed
login x
! hashes.conf line 1: 'login' is a SHA-512 hash with more rounds than are taken, 999999: left out
! hashes.conf line 2: 'login' is a SHA-512 hash with more rounds than are taken, 999999: left out
! hashes.conf line 3: 'login' is a SHA-512 hash with fewer rounds than are taken, 1000: left out
! hashes.conf line 4: 'login' is a SHA-512 hash whose rounds aren't a number in its fewest digits: left out
! hashes.conf line 5: 'login' is a SHA-512 hash whose rounds aren't a number in its fewest digits: left out
! hashes.conf line 6: 'login' is a SHA-512 hash with an empty salt: left out
! hashes.conf line 7: 'login' is a SHA-512 hash with an empty salt: left out
! hashes.conf line 8: 'login' is a SHA-512 hash whose salt isn't 1 to 16 of './0-9A-Za-z': left out
! hashes.conf line 9: 'login' is a SHA-512 hash whose salt isn't 1 to 16 of './0-9A-Za-z': left out
! hashes.conf line 10: 'login' is a SHA-512 hash whose salt isn't followed by '$' and 86 of './0-9A-Za-z': left out
! hashes.conf line 11: 'login' is a SHA-512 hash whose salt isn't followed by '$' and 86 of './0-9A-Za-z': left out
! hashes.conf line 12: 'login' is a SHA-512 hash whose salt isn't followed by '$' and 86 of './0-9A-Za-z': left out
! hashes.conf line 13: 'login' is a SHA-512 hash whose salt isn't followed by '$' and 86 of './0-9A-Za-z': left out
! hashes.conf line 15: 'login' is no password in the clear and no hash that begins with '$6$': left out
! hashes.conf line 17: 'enable' is a SHA-512 hash with more rounds than are taken, 999999: left out
status 5
