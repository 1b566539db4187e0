# What expressions become. Each is searched for in the arguments, and a pattern fits all of them.
file said.conf
user = bob {
|  cmd = a { permit "^a*$" }|
|  cmd = b { permit "^a+$" }|
|  cmd = c { permit "a*" }|
|  cmd = d { permit "[^a]" }|
|  cmd = e { permit "\*\.\$\^\\" }|
|  cmd = f { permit ".?x" }|
|  cmd = g { permit "a.*" }|
|  cmd = h { permit ".*a" }|
|  cmd = i { permit ".+" }|
|  cmd = j { permit "a||b" }|
|  cmd = k { permit "()" }|
|  cmd = l { permit "^()$" }|
|  cmd = m { permit "a|^b" }|
|  cmd = n { permit "^a|^b" }|
|  cmd = o { permit "a|b" }|
|  cmd = p { permit "(^a|b)c" }|
|  cmd = q { permit "a(b$|c)" }|
|  cmd = r { permit "^$" }|
|  cmd = s { permit "^^a$$" }|
|  cmd = t { permit "^a?b?$" }|
|  cmd = u { permit "^a?b$" }|
|  cmd = v { permit "[a-][]a][^]a][$^]" }|
|  cmd = w { permit "^(a|b*)$" }|
|  cmd = x { permit "x?" }|
|  cmd = y { permit "^.*$" }|
|  cmd = z { permit "^.?$" }|
}

$ tacd import said.conf
policy 2
user bob
permit a( a*)?
permit b a+
permit c( .*a*.*)?
permit d .*[^a].*
permit e .*\*\.\$\^\\.*
permit f .*.?x.*
permit g .*a.*
permit h .*a.*
permit i .+
permit j( .*)?
permit k( .*().*)?
permit l( ())?
permit m (.*a.*|b.*)
permit n (a|b).*
permit o .*(a|b).*
permit p (a|.*b)c.*
permit q .*a(b|c.*)
permit r( )?
permit s a
permit t( a?b?)?
permit u a?b
permit v .*[a\-][\]a][^\]a][$\^].*
permit w( (a|b*))?
permit x( .*x?.*)?
permit y( .*)?
permit z( .?)?

# Counts, which older expressions read otherwise.
file counts.conf
user = bob {
|  cmd = a { permit "^a{0,2}$" }|
|  cmd = b { permit "^a{1,2}$" }|
|  cmd = c { permit "^a{0,}$" }|
|  cmd = d { permit "^a{2,}$" }|
|  cmd = e { permit "^(ab){32}$" }|
|  cmd = f { permit "^a{0}$" }|
|  cmd = g { permit "^[a-c]{2,3}$" }|
|  cmd = h { permit "a{33}" }|
|  cmd = i { permit "a{3,2}" }|
|  cmd = j { permit "a{,2}" }|
|  cmd = k { permit "a{2" }|
|  cmd = l { permit "a{b}" }|
|  cmd = m { permit "{2}" }|
|  cmd = n { permit "^{2}" }|
|  cmd = o { permit "^(a{32}){12}$" }|
|  cmd = p { permit "^(a{32}){13}$" }|
}

$ tacd import counts.conf
policy 2
user bob
permit a( a{0,2})?
permit b a{1,2}
permit c( (a{0}a*))?
permit d (a{2}a*)
permit e (ab){32}
permit f( a{0})?
permit g [a-c]{2,3}
permit o (a{32}){12}
! counts.conf line 2: permit '^a{0,2}$': older expressions have no counts, and take '{' as itself: that reading is left out
! counts.conf line 3: permit '^a{1,2}$': older expressions have no counts, and take '{' as itself: that reading is left out
! counts.conf line 4: permit '^a{0,}$': older expressions have no counts, and take '{' as itself: that reading is left out
! counts.conf line 5: permit '^a{2,}$': older expressions have no counts, and take '{' as itself: that reading is left out
! counts.conf line 6: permit '^(ab){32}$': older expressions have no counts, and take '{' as itself: that reading is left out
! counts.conf line 7: permit '^a{0}$': older expressions have no counts, and take '{' as itself: that reading is left out
! counts.conf line 8: permit '^[a-c]{2,3}$': older expressions have no counts, and take '{' as itself: that reading is left out
! counts.conf line 9: permit 'a{33}': older expressions have no counts, and take '{' as itself: that reading is left out
! counts.conf line 9: permit 'a{33}': it counts beyond 32: left out
! counts.conf line 10: permit 'a{3,2}': older expressions have no counts, and take '{' as itself: that reading is left out
! counts.conf line 10: permit 'a{3,2}': it has a '{' that begins no count: left out
! counts.conf line 11: permit 'a{,2}': older expressions have no counts, and take '{' as itself: that reading is left out
! counts.conf line 11: permit 'a{,2}': it has a '{' that begins no count: left out
! counts.conf line 12: permit 'a{2': older expressions have no counts, and take '{' as itself: that reading is left out
! counts.conf line 12: permit 'a{2': it has a '{' that begins no count: left out
! counts.conf line 13: permit 'a{b}': older expressions have no counts, and take '{' as itself: that reading is left out
! counts.conf line 13: permit 'a{b}': it has a '{' that begins no count: left out
! counts.conf line 14: permit '{2}': older expressions have no counts, and take '{' as itself: that reading is left out
! counts.conf line 14: permit '{2}': it repeats nothing: left out
! counts.conf line 15: permit '^{2}': older expressions have no counts, and take '{' as itself: that reading is left out
! counts.conf line 15: permit '^{2}': it repeats nothing: left out
! counts.conf line 16: permit '^(a{32}){12}$': older expressions have no counts, and take '{' as itself: that reading is left out
! counts.conf line 17: permit '^(a{32}){13}$': older expressions have no counts, and take '{' as itself: that reading is left out
! counts.conf line 17: permit '^(a{32}){13}$': it is too large for a pattern: left out
status 5

# What is no expression, or none that a pattern says, is told with why.
file unsaid.conf
user = bob {
|  cmd = show {|
|    permit "a$b"|
|    permit "a^b"|
|    permit "(a$)b"|
|    permit "a(^b)"|
|    permit "$^"|
|    permit "(^a)*"|
|    permit "*a"|
|    permit "^*"|
|    permit "a$*"|
|    permit "a|+b"|
|    permit "[z-a]"|
|    permit "[a"|
|    permit "[]"|
|    permit "(a"|
|    permit "a)"|
|    permit a\|
|    permit "\d"|
|    permit "\0"|
|    permit "grün"|
|    permit "a␛b"|
|    permit "[␉]"|
|    permit said|
|  }|
}

$ tacd import unsaid.conf
policy 2
user bob
permit show .*said.*
! unsaid.conf line 3: permit 'a$b': its '^' or '$' stands within it: left out
! unsaid.conf line 4: permit 'a^b': its '^' or '$' stands within it: left out
! unsaid.conf line 5: permit '(a$)b': its '^' or '$' stands within it: left out
! unsaid.conf line 6: permit 'a(^b)': its '^' or '$' stands within it: left out
! unsaid.conf line 7: permit '$^': its '^' or '$' stands within it: left out
! unsaid.conf line 8: permit '(^a)*': its '^' or '$' stands within it: left out
! unsaid.conf line 9: permit '*a': it repeats nothing: left out
! unsaid.conf line 10: permit '^*': it repeats nothing: left out
! unsaid.conf line 11: permit 'a$*': it repeats nothing: left out
! unsaid.conf line 12: permit 'a|+b': it repeats nothing: left out
! unsaid.conf line 13: permit '[z-a]': it has a '[' that begins no class: left out
! unsaid.conf line 14: permit '[a': it has a '[' that begins no class: left out
! unsaid.conf line 15: permit '[]': it has a '[' that begins no class: left out
! unsaid.conf line 16: permit '(a': it has a '(' that isn't closed: left out
! unsaid.conf line 17: permit 'a)': it has a ')' that closes nothing: left out
! unsaid.conf line 18: permit 'a\': no pattern has this letter after a '\': left out
! unsaid.conf line 19: permit '\d': no pattern has this letter after a '\': left out
! unsaid.conf line 20: permit '\0': no pattern has this letter after a '\': left out
! unsaid.conf line 21: permit 'gr??n': it has a byte that isn't printable ASCII: left out
! unsaid.conf line 22: permit 'a?b': it has a byte that isn't printable ASCII: left out
! unsaid.conf line 23: permit '[?]': it has a byte that isn't printable ASCII: left out
status 5

# Each sign that the C library knows after a '\' is told, and those that it takes as themselves aren't.
file escapes.conf
user = bob {
|  cmd = show {|
|    permit \w permit \W permit \s permit \S permit \b permit \B permit \<|
|    permit \> permit \` permit \'|
|    permit \1 permit \2 permit \3 permit \4 permit \5 permit \6 permit \7 permit \8 permit \9|
|    permit "\. \- \/ \: \, \!"|
|  }|
}

$ tacd import escapes.conf
policy 2
user bob
permit show .*\. - / : , !.*
! escapes.conf line 3: permit '\w': older expressions take what follows its '\' as itself: that reading is left out
! escapes.conf line 3: permit '\w': no pattern has this letter after a '\': left out
! escapes.conf line 3: permit '\W': older expressions take what follows its '\' as itself: that reading is left out
! escapes.conf line 3: permit '\W': no pattern has this letter after a '\': left out
! escapes.conf line 3: permit '\s': older expressions take what follows its '\' as itself: that reading is left out
! escapes.conf line 3: permit '\s': no pattern has this letter after a '\': left out
! escapes.conf line 3: permit '\S': older expressions take what follows its '\' as itself: that reading is left out
! escapes.conf line 3: permit '\S': no pattern has this letter after a '\': left out
! escapes.conf line 3: permit '\b': older expressions take what follows its '\' as itself: that reading is left out
! escapes.conf line 3: permit '\b': no pattern has this letter after a '\': left out
! escapes.conf line 3: permit '\B': older expressions take what follows its '\' as itself: that reading is left out
! escapes.conf line 3: permit '\B': no pattern has this letter after a '\': left out
! escapes.conf line 3: permit '\<': older expressions take what follows its '\' as itself: that reading is left out
! escapes.conf line 3: permit '\<': no pattern has this letter after a '\': left out
! escapes.conf line 4: permit '\>': older expressions take what follows its '\' as itself: that reading is left out
! escapes.conf line 4: permit '\>': no pattern has this letter after a '\': left out
! escapes.conf line 4: permit '\`': older expressions take what follows its '\' as itself: that reading is left out
! escapes.conf line 4: permit '\`': no pattern has this letter after a '\': left out
! escapes.conf line 4: permit '\'': older expressions take what follows its '\' as itself: that reading is left out
! escapes.conf line 4: permit '\'': no pattern has this letter after a '\': left out
! escapes.conf line 5: permit '\1': older expressions take what follows its '\' as itself: that reading is left out
! escapes.conf line 5: permit '\1': no pattern refers back to a group: left out
! escapes.conf line 5: permit '\2': older expressions take what follows its '\' as itself: that reading is left out
! escapes.conf line 5: permit '\2': no pattern refers back to a group: left out
! escapes.conf line 5: permit '\3': older expressions take what follows its '\' as itself: that reading is left out
! escapes.conf line 5: permit '\3': no pattern refers back to a group: left out
! escapes.conf line 5: permit '\4': older expressions take what follows its '\' as itself: that reading is left out
! escapes.conf line 5: permit '\4': no pattern refers back to a group: left out
! escapes.conf line 5: permit '\5': older expressions take what follows its '\' as itself: that reading is left out
! escapes.conf line 5: permit '\5': no pattern refers back to a group: left out
! escapes.conf line 5: permit '\6': older expressions take what follows its '\' as itself: that reading is left out
! escapes.conf line 5: permit '\6': no pattern refers back to a group: left out
! escapes.conf line 5: permit '\7': older expressions take what follows its '\' as itself: that reading is left out
! escapes.conf line 5: permit '\7': no pattern refers back to a group: left out
! escapes.conf line 5: permit '\8': older expressions take what follows its '\' as itself: that reading is left out
! escapes.conf line 5: permit '\8': no pattern refers back to a group: left out
! escapes.conf line 5: permit '\9': older expressions take what follows its '\' as itself: that reading is left out
! escapes.conf line 5: permit '\9': no pattern refers back to a group: left out
status 5

# Neighbours are joined where they are anchored alike, and their parentheses have no anchors.
file joined.conf
user = bob {
|  cmd = a { permit ^a permit b }|
|  cmd = b { permit a$ permit b }|
|  cmd = c { permit ^a permit ^b permit c$ permit d$ permit ^e$ permit ^f$ permit g permit h }|
|  cmd = d { permit "^a*$" permit ^b$ }|
|  cmd = e { permit ^b$ permit "^a*$" }|
|  cmd = f { permit "(^a|b)c" permit d }|
|  cmd = g { permit a permit "b(c$|d)" }|
|  cmd = h { permit "a|b" permit "c|d" }|
|  cmd = i { permit "a|^b" permit c }|
|  cmd = j { permit a permit .* deny b }|
}

$ tacd import joined.conf
policy 2
user bob
permit a a.*
permit a .*b.*
permit b .*a
permit b .*b.*
permit c (a|b).*
permit c .*(c|d)
permit c (e|f)
permit c .*(g|h).*
permit d( (a*|b))?
permit e( (b|a*))?
permit f (a|.*b)c.*
permit f .*d.*
permit g .*a.*
permit g .*b(c|d.*)
permit h .*(a|b|c|d).*
permit i (.*a.*|b.*)
permit i .*c.*
permit j .*a.*
permit j( .*)?
