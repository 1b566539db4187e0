# A configuration of another tac_plus is named as such, at the line that shows it, in place of its first
# fault. Nothing is printed.
file ng.conf
|#!/usr/local/sbin/tac_plus-ng|
id = spawnd {
|  listen = { port = 49 }|
}
id = tac_plus-ng {
|  host world { key = taiga address = 0.0.0.0/0 }|
}

$ tacd import ng.conf
! ng.conf line 1: this is a configuration of tac_plus-ng, which isn't read: docs/MOVING.md
status 1

# Of what shows it the surest counts, wherever it stands.
file spawned.conf
|# made by hand|
id = spawnd { listen = { port = 49 } }
||
id = tac_plus-ng {
|  profile admins { script { permit } }|
}

$ tacd import spawned.conf
! spawned.conf line 4: this is a configuration of tac_plus-ng, which isn't read: docs/MOVING.md
status 1

file old.conf
id = spawnd { listen = { port = 49 } }
id = tac_plus {
|  host = world { address = 0.0.0.0/0 key = "taiga" }|
}

$ tacd import old.conf
! old.conf line 2: this is a configuration of another tac_plus, by its 'id', which isn't read: docs/MOVING.md
status 1

# Else the first.
file alone.conf
id = spawnd {
|  listen = { port = 49 }|
}

$ tacd import alone.conf
! alone.conf line 1: this is a configuration of tac_plus-ng, which isn't read: docs/MOVING.md
status 1

file equals.conf
|# listens|
spawnd = {
|  listen = { port = 49 }|
}

$ tacd import equals.conf
! equals.conf line 2: this is a configuration of tac_plus-ng, which isn't read: docs/MOVING.md
status 1

file braces.conf
spawnd {
|  listen { port = 49 }|
}

$ tacd import braces.conf
! braces.conf line 1: this is a configuration of tac_plus-ng, which isn't read: docs/MOVING.md
status 1

# Parts of one, as of a file that another includes.
file profile.conf
profile readonly {
|  script { if (service == shell) { set priv-lvl = 1 permit } }|
}

$ tacd import profile.conf
! profile.conf line 1: this is a configuration of tac_plus-ng, which isn't read: docs/MOVING.md
status 1

file realm.conf
realm west { net inside { address = 10.0.0.0/8 } }

$ tacd import realm.conf
! realm.conf line 1: this is a configuration of tac_plus-ng, which isn't read: docs/MOVING.md
status 1

file net.conf
net inside { 10.0.0.0/8 }

$ tacd import net.conf
! net.conf line 1: this is a configuration of tac_plus-ng, which isn't read: docs/MOVING.md
status 1

file device.conf
device core {
|  address = 192.0.2.1|
}

$ tacd import device.conf
! device.conf line 1: this is a configuration of tac_plus-ng, which isn't read: docs/MOVING.md
status 1

file rules.conf
|# who may do what|
ruleset {
|  rule from-west { script { profile = admins permit } }|
}

$ tacd import rules.conf
! rules.conf line 2: this is a configuration of tac_plus-ng, which isn't read: docs/MOVING.md
status 1

file users.conf
user fred {
|  password { login = clear taiga }|
|  member = admins|
}

$ tacd import users.conf
! users.conf line 2: this is a configuration of tac_plus-ng, which isn't read: docs/MOVING.md
status 1

file mavis.conf
mavis module = external { exec = /bin/true }

$ tacd import mavis.conf
! mavis.conf line 1: this is a configuration of tac_plus-ng, which isn't read: docs/MOVING.md
status 1

file hosts.conf
|# the campus|
host campus {
|  key = taiga|
|  address = 10.0.0.0/8|
}

$ tacd import hosts.conf
! hosts.conf line 2: this is a configuration of tac_plus-ng, which isn't read: docs/MOVING.md
status 1

# It is seen before what can't be read of it.
file cut.conf
id = tac_plus-ng {
|  script { if (user =~ /"/) permit }|

$ tacd import cut.conf
! cut.conf line 1: this is a configuration of tac_plus-ng, which isn't read: docs/MOVING.md
status 1

file ends.conf
id = tac_plus-ng {␍

$ tacd import ends.conf
! ends.conf line 1: this is a configuration of tac_plus-ng, which isn't read: docs/MOVING.md
status 1

# Nothing of it is seen in comments, in quotes, and in what tac_plus F4.0.4 has too.
file comments.conf
|# id = tac_plus-ng {|
key "a key"

$ tacd import comments.conf
! comments.conf line 2: an '=' is missing here
status 1

file quotes.conf
user = bob { name = "profile admins { script {" role = admin }

$ tacd import quotes.conf
! quotes.conf line 1: tac_plus F4.0.4 has no such setting here
status 1

file host.conf
host campus {
|  key = taiga|
}

$ tacd import host.conf
! host.conf line 1: an '=' is missing here
status 1

file commands.conf
user = bob {
|  cmd = script { permit .* }|
|  cmd = password { permit .* }|
|  service = tunnel { address = 192.0.2.1 profile = admins }|
|  role = admin|
}

$ tacd import commands.conf
! commands.conf line 5: tac_plus F4.0.4 has no such setting here
status 1

# One that tac_plus F4.0.4 reads stays one of its.
file read.conf
|#!/usr/local/sbin/tac_plus-ng|
user = bob {
|  login = cleartext blue-lake|
|  service = tunnel { default attribute = permit address = 192.0.2.1 }|
}

$ tacd import read.conf
policy 3
user bob
login blue-lake
service tunnel address=192.0.2.1
