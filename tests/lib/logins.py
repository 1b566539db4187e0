"""Users with hashes of passwords, and their logins."""

# Ann's hashes take a hundred thousand rounds, of `secret` and then of `other`.
HASHED = (
    "policy 3\ngroup ops\npermit show .*\nuser bob in ops\nlogin secret\nuser ann\nlogin-hash "
    "$6$rounds=100000$salt$w7KyVDyVQ1Ki.i9lRcLj.Nm7FbZD0fiAEzSBdZi97dTM7OQulYlxEavyNLmiD7RwPspmny"
    "4OUAUbY5MwoyL5h1\n"
)
# Ann logs in with `secret` and with `other`, which has one letter less, and without a password.
LOGINS = {
    "secret": "c1010104.00000001.00000011.0101020103000006'annsecret'",
    "other": "c1010104.00000001.00000010.0101020103000005'annother'",
    "": "c1010104.00000001.0000000b.0101020103000000'ann'",
}
LET_IN = "c1010204.00000001.00000006.010000000000"
FAILED = "c1010204.00000001.0000001b.020000150000'Authentication failed'"
