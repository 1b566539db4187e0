# What services and their attributes become.

# A nearer 'exec' decides alone: one without attributes takes away those of the group, and its level.
file nearer.conf
group = ops {
|  service = exec { default attribute = permit priv-lvl = 15 idletime = 5 optional acl = 7 }|
|  service = ppp protocol = ip { default attribute = permit inacl = 7 }|
}
group = inner { member = ops }
group = level { service = exec { default attribute = permit priv-lvl = 7 } }
user = u1 { member = ops service = exec { default attribute = permit } }
user = u2 { member = inner service = exec { default attribute = permit } service = ppp protocol = ip { default attribute = permit } }
user = u3 { member = inner service = exec { default attribute = permit priv-lvl = 0 acl = 8 } service = ppp protocol = lcp { default attribute = permit } }
user = u4 { member = inner }
user = u5 { member = level service = exec { default attribute = permit } }
user = u6 { service = exec { default attribute = permit } }

$ tacd import nearer.conf
policy 3
group ops
priv 15
service shell idletime=5
service shell acl*7
service ppp/ip inacl=7
permit ()
group inner in ops
group level
priv 7
permit ()
user u1 in ops
priv 1
service shell
permit ()
user u2 in inner
priv 1
service shell
service ppp/ip
permit ()
user u3 in inner
priv 0
service shell acl=8
service ppp/lcp
permit ()
user u4 in inner
user u5 in level
priv 1
permit ()
user u6
permit ()
! nearer.conf line 7: 'exec' has no 'priv-lvl' and its groups have one: 'priv 1' is written
! nearer.conf line 8: 'exec' has no 'priv-lvl' and its groups have one: 'priv 1' is written
! nearer.conf line 11: 'exec' has no 'priv-lvl' and its groups have one: 'priv 1' is written

# A level is one of 0 to 15, and the first that is one counts.
file levels.conf
user = u1 { service = exec { default attribute = permit priv-lvl = 0 } }
user = u2 { service = exec { default attribute = permit priv-lvl = 15 } }
user = u3 { service = exec { default attribute = permit priv-lvl = 16 } }
user = u4 { service = exec { default attribute = permit priv-lvl = high } }
user = u5 { service = exec { default attribute = permit priv-lvl = -1 priv-lvl = 3 priv-lvl = 4 } }
user = u6 { service = exec { default attribute = permit optional priv-lvl = 2 } }
user = u7 { service = ppp protocol = ip { default attribute = permit priv-lvl = 16 } }

$ tacd import levels.conf
policy 3
user u1
priv 0
permit ()
user u2
priv 15
permit ()
user u3
permit ()
user u4
permit ()
user u5
priv 3
permit ()
user u6
priv 2
permit ()
user u7
service ppp/ip priv-lvl=16
! levels.conf line 3: '16' is no level of 0 to 15, or a second one: left out
! levels.conf line 4: 'high' is no level of 0 to 15, or a second one: left out
! levels.conf line 5: '-1' is no level of 0 to 15, or a second one: left out
! levels.conf line 5: '4' is no level of 0 to 15, or a second one: left out
! levels.conf line 6: 'exec' is given as mandatory here
status 5

# An attribute has a name without blanks, and 255 printable characters at most. A device is sent it as
# tac_plus sends it, whatever its name has. One that is there twice is given once.
file attributes.conf
user = bob {
|  service = junos-exec {|
|    default attribute = permit|
|    one = 1|
|    one = 1|
|    optional one = 1|
|    one = 2|
|    "two words" = x|
|    a*b = x|
|    "" = x|
|    three = "a␛b"|
|    four = ""|
|    five = " a=b * c "|
|    n = 123456789-123456789-123456789-123456789-123456789-123456789-123456789-123456789-123456789-123456789-123456789-123456789-123456789-123456789-123456789-123456789-123456789-123456789-123456789-123456789-123456789-123456789-123456789-123456789-123456789-123|
|    n = 123456789-123456789-123456789-123456789-123456789-123456789-123456789-123456789-123456789-123456789-123456789-123456789-123456789-123456789-123456789-123456789-123456789-123456789-123456789-123456789-123456789-123456789-123456789-123456789-123456789-1234|
|    "a=b" = x|
|  }|
}

$ tacd import attributes.conf
policy 3
user bob
service junos-exec one=1
service junos-exec one*1
service junos-exec one=2
service junos-exec a*b=x
service junos-exec four=
|service junos-exec five= a=b * c |
service junos-exec n=123456789-123456789-123456789-123456789-123456789-123456789-123456789-123456789-123456789-123456789-123456789-123456789-123456789-123456789-123456789-123456789-123456789-123456789-123456789-123456789-123456789-123456789-123456789-123456789-123456789-123
service junos-exec a=b=x
! attributes.conf line 8: 'two words' is no attribute here: left out
! attributes.conf line 10: '' is no attribute here: left out
! attributes.conf line 11: 'three' is no attribute here: left out
! attributes.conf line 15: 'n' is no attribute here: left out
status 5

# Where all attributes of a service are left out, it may be used all the same.
file bare.conf
user = bob { service = slip { default attribute = permit "a b" = c } }

$ tacd import bare.conf
policy 3
user bob
service slip
! bare.conf line 1: 'a b' is no attribute here: left out
status 5

# A service has a name, and may have a protocol, as users have.
file services.conf
user = bob {
|  service = ppp { default attribute = permit }|
|  service = ppp protocol = lcp { default attribute = permit }|
|  service = ppp protocol = lcp { default attribute = permit a = b }|
|  service = ppp protocol = "a b" { default attribute = permit }|
|  service = exec protocol = ip { default attribute = permit priv-lvl = 3 }|
|  service = exec { default attribute = permit priv-lvl = 4 }|
|  service = a/b { default attribute = permit }|
|  service = "" { default attribute = permit }|
|  service = Exec { default attribute = permit }|
}

$ tacd import services.conf
policy 3
user bob
priv 3
service ppp
service ppp/lcp
service a/b
service Exec
permit ()
! services.conf line 4: 'ppp' is a second 'service' of this name, and the first decides
! services.conf line 5: 'ppp/a b' is no service here: left out
! services.conf line 7: 'exec' is a second 'service' of this name, and the first decides
! services.conf line 9: '' is no service here: left out
status 5
