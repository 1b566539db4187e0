# Settings that have no equal, each at its line, of users and of groups; and those that need none.
file settings.conf
user = bob {
|  name = "Robert Burns"|
|  login = cleartext x|
|  expires = "Dec 31 2027"|
|  maxsess = 3|
|  message = "Welcome"|
|  acl = office|
|  enableacl = office|
|  before authorization "/usr/local/bin/check $user"|
|  after authorization /usr/local/bin/filter|
}
group = ops {
|  name = Operators|
|  expires = "Dec 31 2027"|
|  maxsess = 3|
|  message = "Welcome"|
|  acl = office|
|  enableacl = office|
|  before authorization check|
|  after authorization filter|
}
acl = office {
|  permit = 192\.0\.2\.|
|  deny = .*|
}
default authentication = file /etc/passwd
default authorization = deny
accounting file = /var/log/tac_plus.acct
accounting syslog
logging = local6
host = 192.0.2.1 {
|  prompt = "Who is there? "|
|  type = cisco|
|  enable = des abcdefghijklm|
|  key = wintry-tundra|
}

$ tacd import --devices-to devices settings.conf
policy 2
user bob
login x
group ops
! settings.conf line 4: 'expires' has no equal here: left out
! settings.conf line 5: 'maxsess' has no equal here: left out
! settings.conf line 6: 'message' has no equal here: left out
! settings.conf line 7: 'acl' has no equal here, '--devices' says which devices may call: left out
! settings.conf line 8: 'enableacl' has no equal here, '--devices' says which devices may call: left out
! settings.conf line 9: 'before authorization' has no equal here: left out
! settings.conf line 10: 'after authorization' has no equal here: left out
! settings.conf line 14: 'expires' has no equal here: left out
! settings.conf line 15: 'maxsess' has no equal here: left out
! settings.conf line 16: 'message' has no equal here: left out
! settings.conf line 17: 'acl' has no equal here, '--devices' says which devices may call: left out
! settings.conf line 18: 'enableacl' has no equal here, '--devices' says which devices may call: left out
! settings.conf line 19: 'before authorization' has no equal here: left out
! settings.conf line 20: 'after authorization' has no equal here: left out
! settings.conf line 22: 'acl' has no equal here, '--devices' says which devices may call: left out
! settings.conf line 26: 'default authentication' has no equal here, each user has a login of its own: left out
! settings.conf line 27: 'default authorization' has no equal here, each user is listed: left out
! settings.conf line 28: 'accounting file' isn't set here, 'serve --log PATH' writes each record: left out
! settings.conf line 29: 'accounting syslog' isn't set here, rsyslog can send on what 'serve --log PATH' writes: left out
! settings.conf line 30: 'logging' isn't set here, rsyslog can send on what 'serve --log PATH' writes: left out
! settings.conf line 32: 'prompt' has no equal here: left out
! settings.conf line 33: 'type' has no equal here: left out
! settings.conf line 34: 'enable' has no equal here, each user has an 'enable' of its own: left out
status 5

# A setting of one place is none of another.
file host-login
host = 192.0.2.1 { login = cleartext x }

$ tacd import host-login
! host-login line 1: tac_plus F4.0.4 has no such setting here
status 1

file user-key
user = bob {
|  key = x|
}

$ tacd import user-key
! user-key line 2: tac_plus F4.0.4 has no such setting here
status 1

file top-login
|# a comment|
login = cleartext x

$ tacd import top-login
! top-login line 2: tac_plus F4.0.4 has no such setting here
status 1

file default-shell
user = bob { default shell = permit }

$ tacd import default-shell
! default-shell line 1: tac_plus F4.0.4 has no such setting here
status 1

file before-login
user = bob { before login x }

$ tacd import before-login
! before-login line 1: tac_plus F4.0.4 has no such setting here
status 1

file accounting-all
accounting all

$ tacd import accounting-all
! accounting-all line 1: tac_plus F4.0.4 has no such setting here
status 1
