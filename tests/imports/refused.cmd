# What isn't a configuration of tac_plus F4.0.4 is refused at its line, and nothing is printed.
file no-equals
key "a key"

$ tacd import no-equals
! no-equals line 1: an '=' is missing here
status 1

file no-open
user = bob
login = cleartext x

$ tacd import no-open
! no-open line 2: a '{' is missing here
status 1

file no-word
user = bob {
|  login = cleartext }|
}

$ tacd import no-word
! no-word line 2: a word is missing here
status 1

file no-verdict
user = bob { cmd = show { allow .* } }

$ tacd import no-verdict
! no-verdict line 1: 'permit' or 'deny' is missing here
status 1

file no-method
user = bob {
|  login = blue-lake|
}

$ tacd import no-method
! no-method line 2: this is no kind of password
status 1

file no-setting
user = bob {
|  role = admin|
}

$ tacd import no-setting
! no-setting line 2: tac_plus F4.0.4 has no such setting here
status 1

# A word ends before an '=', also a hash or a password.
file cut-hash
user = bob {
|  login = des $6$rounds=1000000$saltsalt$temoAzB1LMUGfs39YsEHhlSSY8ud5tjHcrE1ZINzi8TsesBqqjufdtA7fVhnojTHlBhKZVF0Q9wxWAcE707Cb0|
}

$ tacd import cut-hash
! cut-hash line 2: an '=' ends a word: put this hash or password into quotation marks
status 1

file cut-password
user = bob {
|  login = cleartext x|
|  enable = cleartext blue=lake|
}

$ tacd import cut-password
! cut-password line 3: an '=' ends a word: put this hash or password into quotation marks
status 1

file two-defaults
user = bob {
|  service = exec {|
|    default attribute = permit|
|    default attribute = permit|
|  }|
}

$ tacd import two-defaults
! two-defaults line 4: this is there already, at line 3
status 1

file open-quote
key = k
user = bob { name = "Bob
}

$ tacd import open-quote
! open-quote line 2: this quotation mark is never closed
status 1

# An end of a line within quotes, after a backslash, counts too.
file quoted-end
key = "a\
b"
user = bob { cmd = show { allow .* } }

$ tacd import quoted-end
! quoted-end line 3: 'permit' or 'deny' is missing here
status 1

file open-brace
user = bob {
|  cmd = show { permit .*}|
}

$ tacd import open-brace
! open-brace line 3: the file ends before its '}'
status 1

file carriage
key = k␍

$ tacd import carriage
! carriage line 1: a carriage return: lines are to end in LF alone
status 1

file other-file
include = more.conf

$ tacd import other-file
! other-file line 1: tac_plus F4.0.4 reads no other file: put them into one first
status 1

file twice
user = bob { login = cleartext x }
group = bob { }
user = bob { login = cleartext y }

$ tacd import twice
! twice line 3: this is there already, at line 1
status 1

file two-groups
group = one { }
group = two { }
user = bob {
|  member = one|
|  member = two|
}

$ tacd import two-groups
! two-groups line 5: this is there already, at line 4
status 1

file two-hosts
host = 192.0.2.1 { key = one }
host = 192.0.2.1 { key = two }

$ tacd import two-hosts
! two-hosts line 2: this is there already, at line 1
status 1

file two-keys
host = 192.0.2.1 {
|  key = one|
|  key = two|
}

$ tacd import two-keys
! two-keys line 3: this is there already, at line 2
status 1

$ tacd import nowhere
! tacd: nowhere: No such file or directory (os error 2)
status 4

folder place

$ tacd import place
! tacd: place: it is a folder
status 4

file good
user = bob { login = cleartext x }

$ tacd import --devices-to place good
! tacd: place: Is a directory (os error 21)
status 4

$ tacd import
! error: the following required arguments were not provided:
!   <FILE>
!
! Usage: tacd import <FILE>
!
! For more information, try '--help'.
status 2
