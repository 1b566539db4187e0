"""Wrong bodies of the reference: in a module one text is put for another.

Those that don't show are right in another way, so that a script that differs on one of them would
tell of a fault in the comparison itself.
"""

from typing import NamedTuple


class WrongBody(NamedTuple):
    name: str
    module: str
    old: str
    new: str
    shows: bool = True


WRONG_BODIES = [
    # Patterns and what is looked for with them.
    WrongBody(
        "a ^ in the middle of a class negates it",
        "patterns.py",
        'negated = self.source[self.place : self.place + 1] == "^"',
        'negated = "^" in self.source[self.place : self.source.find("]", self.place)]',
    ),
    WrongBody(
        "the first parenthesis that isn't closed is named",
        "patterns.py",
        "open_places[-1][0]",
        "open_places[0][0]",
    ),
    WrongBody(
        "a + holds the empty text",
        "patterns.py",
        'return star if kind == "*" else factors + star',
        "return star",
    ),
    WrongBody(
        "a pattern may have one factor more",
        "patterns.py",
        "> MOST_FACTORS",
        "> MOST_FACTORS + 1",
    ),
    WrongBody(
        "one group too many in a count",
        "patterns.py",
        "(factors, ())),) * (high - low)",
        "(factors, ())),) * (high - low + 1)",
    ),
    WrongBody(
        "a brace in a class is quoted too",
        "patterns.py",
        "and not in_class and not quoted",
        "and not quoted",
    ),
    WrongBody(
        "the line that says the version isn't counted",
        "policy.py",
        "list(enumerate(lines, start=first_line))[1 if version > 1 else 0 :]",
        "enumerate(lines[1 if version > 1 else 0 :], start=first_line)",
    ),
    WrongBody(
        "a star goes on only with what it begins with",
        "residuals.py",
        "return derivatives(rest, symbol).union(inside)",
        "return frozenset(inside) or derivatives(rest, symbol)",
    ),
    WrongBody(
        "the last rule that matches decides",
        "residuals.py",
        "for place, residual in enumerate(state):\n        if is_match",
        "for place, residual in reversed(list(enumerate(state))):\n        if is_match",
    ),
    WrongBody(
        "columns are spelled by their greatest symbols",
        "residuals.py",
        "for symbol in SYMBOLS:\n        least",
        "for symbol in reversed(SYMBOLS):\n        least",
    ),
    WrongBody(
        "a pattern is sure once it has a term that ends in .*",
        "residuals.py",
        "return ANY_TEXT in residual",
        "return any(term[-1:] == ANY_TEXT for term in residual)",
    ),
    WrongBody(
        "rules after one that is sure are counted",
        "residuals.py",
        "    for place, residual in enumerate(state):\n        if is_sure",
        "    for place, residual in enumerate(state[-1:], len(state) - 1):\n        if is_sure",
    ),
    WrongBody(
        "of a rule that is sure all terms are counted",
        "residuals.py",
        "(frozenset([ANY_TEXT]),)",
        "(residual,)",
    ),
    WrongBody(
        "what comes before a rule that is sure isn't counted",
        "residuals.py",
        "return state[:place] + (",
        "return (NOTHING,) * place + (",
    ),
    WrongBody(
        "a subject may have one state more",
        "decisions.py",
        "has_more_states(patterns, MOST_STATES)",
        "has_more_states(patterns, MOST_STATES - 1)",
    ),
    WrongBody(
        "a group's rules come before a user's own",
        "decisions.py",
        "for owner in chain_of(policy, subject)\n        for number",
        "for owner in reversed(chain_of(policy, subject))\n        for number",
    ),
    WrongBody(
        "the level of the farthest group counts",
        "decisions.py",
        "levels[0] if",
        "levels[-1] if",
    ),
    WrongBody(
        "users that were taken out are told no changes of",
        "decisions.py",
        "for user in users + gone:",
        "for user in users:",
    ),
    # The policy's text and edits.
    WrongBody(
        "a cycle is told before a group that isn't there",
        "policy.py",
        'raise BadPolicy(line, "7 NoSuchParent")',
        'raise BadPolicy(line, "8 Cycle" if None in lengths else "7 NoSuchParent")',
    ),
    WrongBody(
        "a secret before any subject is a bad line",
        "policy.py",
        "if self.subjects and self.subjects[-1].kind == GROUP:",
        "if not self.subjects or self.subjects[-1].kind == GROUP:",
    ),
    WrongBody(
        "a hash may stand in a text of version 2",
        "policy.py",
        'in ("login-hash", "enable-hash") and self.version == 3:',
        'in ("login-hash", "enable-hash") and self.version >= 2:',
    ),
    WrongBody(
        "a policy with a hash to enable with alone is printed in version 2",
        "policy.py",
        "return isinstance(subject.login, Hash) or isinstance(subject.enable, Hash)",
        "return isinstance(subject.login, Hash)",
    ),
    WrongBody(
        "a line about a service may stand in a text of version 2",
        "policy.py",
        'elif word == "service" and self.version == 3:',
        'elif word == "service" and self.version >= 2:',
    ),
    WrongBody(
        "a service is refused beside its attributes",
        "services.py",
        "return self == other or None in (self.attribute, other.attribute)",
        "return self.attribute == other.attribute",
    ),
    WrongBody(
        "an attribute that is mandatory is that which is optional",
        "services.py",
        "self == other or",
        're.split("[=*]", self.attribute or "") == re.split("[=*]", other.attribute or "") or',
    ),
    WrongBody(
        "a name of an attribute may have a blank",
        "services.py",
        'name == "" or " " in name or',
        'name == "" or',
    ),
    WrongBody(
        "a shell may be refused",
        "services.py",
        "return self.service != SHELL",
        "return True",
    ),
    WrongBody(
        "a cleared attribute clears a refusal too",
        "edits.py",
        "attribute not in (None, line.attribute)",
        'line.word != "refuse" and attribute not in (None, line.attribute)',
    ),
    WrongBody(
        "a subject may have 65 lines about services",
        "policy.py",
        "if len(services) == MOST_SERVICES:",
        "if len(services) > MOST_SERVICES:",
    ),
    WrongBody(
        "rounds are ignored",
        "hashes.py",
        "crypted(self.rounds or ROUNDS, self.salt, password)",
        "crypted(ROUNDS, self.salt, password)",
    ),
    WrongBody(
        "a hash passes as a password",
        "desk.py",
        "return secret.passes(password)",
        "return secret.passes(password) or bytes_of(str(secret)) == password",
    ),
    WrongBody(
        "only the chain of who is moved is judged",
        "edits.py",
        "lengths = [chain_length(after, subject) for subject in after]",
        "lengths = [chain_length(after, after[place])]",
    ),
    WrongBody(
        "a group may be removed while users belong to it",
        "edits.py",
        "any(subject.parent == name for subject in policy)",
        "any(subject.parent == name and subject.kind == GROUP for subject in policy)",
    ),
    WrongBody(
        "a rule is shifted to the place before the one that it should have",
        "edits.py",
        "others[: target - 1] + (rules[source - 1],) + others[target - 1 :]",
        "others[: target - 2 + (target <= source)] + (rules[source - 1],)"
        " + others[target - 2 + (target <= source) :]",
    ),
    WrongBody(
        "a pattern is judged before the place of its rule",
        "edits.py",
        "    rules = policy[place].rules\n    if not 1 <= at <= len(rules) + 1:",
        "    rules = policy[place].rules\n    try:\n        read_pattern(source)\n"
        "    except BadPattern as fault:\n"
        '        raise Refused(f"8 BadPattern {fault}") from None\n'
        "    if not 1 <= at <= len(rules) + 1:",
    ),
    # Connections.
    WrongBody(
        "each block of the pad is the first",
        "wire.py",
        "hashlib.md5(seed + digest)",
        "hashlib.md5(seed)",
    ),
    WrongBody(
        "the rest of a piece is forgotten where a packet isn't whole",
        "conversations.py",
        "if len(self.unread) < end:\n",
        "if len(self.unread) < end:\n                self.unread = b''\n",
    ),
    WrongBody(
        "each packet says anew whether a connection is single",
        "conversations.py",
        "if self.single is None:",
        "if header.seq_no == 1:",
    ),
    WrongBody(
        "a session stays open after its last reply",
        "conversations.py",
        "self.sessions.pop(session_id, None)",
        "session_id",
    ),
    WrongBody(
        "seventeen sessions may be open",
        "conversations.py",
        "== MOST_SESSIONS",
        "> MOST_SESSIONS",
    ),
    WrongBody(
        "a login goes by the policy that was when its connection began",
        "conversations.py",
        "self.desk = desk",
        "self.desk = type(desk)(desk.policy)\n        self.desk.records = desk.records",
    ),
    WrongBody(
        "only the flags 1 abort a login",
        "wire.py",
        "flags & 0x01 != 0)",
        "flags == 0x01)",
    ),
    WrongBody(
        "a response without a challenge is refused",
        "desk.py",
        "len(data) < 17",
        "len(data) < 18",
    ),
    WrongBody(
        "any service may be the shell, not only the first",
        "accounting.py",
        'first_value(pairs, "service") == "shell"',
        '("service", "shell") in pairs',
    ),
    WrongBody(
        "only a shell's record has a line",
        "accounting.py",
        "None in pairs else command_of(pairs)",
        "None in pairs else line_of(pairs)",
    ),
    WrongBody(
        "level and attributes are sent with each permitted line",
        "desk.py",
        'why is not None or line != "":',
        "why is not None:",
    ),
    # What is said of services.
    WrongBody(
        "the farthest who says anything of a service decides",
        "decisions.py",
        "for owner in chain_of(policy, subject):\n        lines",
        "for owner in reversed(chain_of(policy, subject)):\n        lines",
    ),
    WrongBody(
        "attributes are joined along the chain",
        "decisions.py",
        "            return owner, lines",
        "            above = chain_of(policy, owner)[1:]\n"
        "            return owner, lines + said_of(policy, above[0], asked)[1] if above else lines",
    ),
    WrongBody(
        "a refusal is passed over",
        "decisions.py",
        "        if lines:\n",
        '        if lines and lines[0].word != "refuse":\n',
    ),
    WrongBody(
        "a line without an attribute is passed over",
        "decisions.py",
        "        if lines:\n",
        '        if attributes_of(lines) or [line for line in lines if line.word == "refuse"]:\n',
    ),
    WrongBody(
        "a protocol counts for nothing",
        "services.py",
        "return (name, protocol) == asked",
        "return name == asked.service",
    ),
    WrongBody(
        "a line without a protocol is about all of them",
        "services.py",
        "return (name, protocol) == asked",
        'return name == asked.service and protocol in ("", asked.protocol)',
    ),
    WrongBody(
        "a name with a slash is one with a protocol",
        "services.py",
        "return (name, protocol) == asked",
        'return self.service == "/".join(filter(None, asked))',
    ),
    WrongBody(
        "the first protocol counts, also where it is empty",
        "services.py",
        'if name == "protocol" and value != ""]',
        'if name == "protocol"]',
    ),
    WrongBody(
        "a shell has a protocol",
        "conversations.py",
        "        if line is not None:\n            why, arguments",
        '        if line is not None and asked.protocol == "":\n            why, arguments',
    ),
    WrongBody(
        "the level comes after the attributes",
        "desk.py",
        '([] if level is None else [f"priv-lvl={level}"]) + attributes_of(lines)',
        'attributes_of(lines) + ([] if level is None else [f"priv-lvl={level}"])',
    ),
    WrongBody(
        "a user refuses what his group refuses",
        "desk.py",
        'f"refused by {owner.label()}"',
        'f"refused by {user.label()}"',
    ),
    WrongBody(
        "who isn't there is told so, whatever the service",
        "desk.py",
        '            return "unsupported service", []',
        '            return "unknown user" if user is None else "unsupported service", []',
    ),
    # The lines of the log.
    WrongBody(
        "a login is told under the name that its START has",
        "auditing.py",
        "login.start._replace(user=login.user or typed.message)",
        "login.start",
    ),
    WrongBody(
        "a login that was given up is told as out of turn",
        "auditing.py",
        "self.refused(header, ABORTED)",
        "self.refused(header, OUT_OF_TURN)",
    ),
    WrongBody(
        "a packet out of turn is told only where its connection goes on",
        "conversations.py",
        "            return self.refuse(header, auditing.OUT_OF_TURN)\n        login =",
        "            self.closed = True\n            return None\n        login =",
    ),
    WrongBody(
        "the first argument of a reply isn't told",
        "auditing.py",
        "listed(given)",
        "listed(given[1:])",
    ),
    WrongBody(
        "a reply without arguments is told to give none",
        "auditing.py",
        "if given:",
        "if given is not None:",
    ),
    WrongBody(
        "a DEL is no control character",
        "auditing.py",
        '"\\x7f" <= symbol',
        '"\\x80" <= symbol',
    ),
    # Edits that are made together.
    WrongBody(
        "a refused batch keeps its first edits",
        "console.py",
        "        return change(desk, edits.edited_together(desk.policy, kept))",
        "        for number, edit in enumerate(kept, start=1):\n"
        "            try:\n"
        "                after = edits.edited_together(desk.policy, [edit])\n"
        "            except Refused as fault:\n"
        '                raise Refused(str(fault).replace("edit 1:", f"edit {number}:")) from None\n'
        "            before, desk.policy = desk.policy, after\n"
        "        return change(desk, desk.policy)",
    ),
    WrongBody(
        "a policy in between may not be too large",
        "edits.py",
        "            policy = edit(policy)\n        except",
        "            policy = edited(policy, edit)\n        except",
    ),
    WrongBody(
        "a refused commit leaves the batch open",
        "console.py",
        '    kept, desk.batch = desk.batch, [] if word == "begin" else None\n',
        '    kept, desk.batch = desk.batch, [] if word == "begin" else None\n'
        '    if word == "commit":\n'
        "        desk.batch = kept\n"
        "        policy = edits.edited_together(desk.policy, kept)\n"
        "        desk.batch = None\n",
    ),
    # Records and the console.
    WrongBody(
        "a watchdog ends its task",
        "accounting.py",
        "if record.kind in (START, STOP)}",
        "}",
    ),
    WrongBody(
        "what drift was found to be stays after an edit",
        "desk.py",
        "self.why_denied(name, line) is not None)",
        "vars(self).setdefault((name, line), self.why_denied(name, line) is not None))",
    ),
    WrongBody(
        "a group's tally has only the users right under it",
        "desk.py",
        "for above in chain_of(self.policy, subject)",
        "for above in chain_of(self.policy, subject)[:2]",
    ),
    # What is told of services.
    WrongBody(
        "services that the old policy alone names aren't asked",
        "given.py",
        "for policy in (after, before) for",
        "for policy in (after,) for",
    ),
    WrongBody(
        "an attribute that was given is told as gained",
        "given.py",
        "for argument in now if argument not in was]",
        "for argument in now]",
    ),
    WrongBody(
        "the level is told of the farthest who has one",
        "given.py",
        "    for subject in chain_of(policy, user):",
        "    for subject in reversed(chain_of(policy, user)):",
    ),
    WrongBody(
        "a level isn't among what a shell is given",
        "given.py",
        'return desk.line_answered(user, "")[1]',
        'return [it for it in desk.line_answered(user, "")[1] if not it.startswith("priv-lvl=")]',
    ),
    # Devices' files.
    WrongBody(
        "the first prefix decides",
        "devices.py",
        "max(places, key=lambda place: place[1].prefixlen, default=None)",
        "next(iter(places), None)",
    ),
    WrongBody(
        "the shortest prefix decides",
        "devices.py",
        "max(places, key=",
        "min(places, key=",
    ),
    WrongBody(
        "an address that came as IPv6 is looked up as IPv6",
        "devices.py",
        "if address.version == 6 and address.ipv4_mapped is not None:",
        "if False:",
    ),
    WrongBody(
        "an IPv4 prefix may be written as IPv6",
        "devices.py",
        "return None if prefix.version == 6 and prefix.subnet_of(MAPPED) else prefix",
        "return prefix",
    ),
    WrongBody(
        "bits after the length are dropped",
        "devices.py",
        "(int(address).to_bytes(address.max_prefixlen // 8), length))",
        "(int(address).to_bytes(address.max_prefixlen // 8), length), strict=False)",
    ),
    WrongBody(
        "a prefix that another device has is taken",
        "devices.py",
        "if any(prefix in device.prefixes for device in devices):",
        "if prefix in devices[-1].prefixes:",
    ),
    WrongBody(
        "a device without an address comes before one without a key",
        "devices.py",
        """        if not has_way(device):
            raise Refused(f"{device.line} 8 NoKey")
""",
        """        if not has_way(device):
            raise Refused(f"{device.line} 8 NoKey")
        if not device.prefixes:
            raise Refused(f"{device.line} 9 NoAddress")
""",
    ),
    WrongBody(
        "a device's key may be its old one too",
        "devices.py",
        "    if device.key is not None and device.key.text == text:\n",
        "    if False:\n",
    ),
    WrongBody(
        "a device with tls may have an old key without a key",
        "devices.py",
        "return device.tls is not None and device.old_key is None",
        "return device.tls is not None",
    ),
    WrongBody(
        "a device with tls needs a key",
        "devices.py",
        "return device.tls is not None and device.old_key is None",
        "return False",
    ),
    WrongBody(
        "a second tls takes the place of the first",
        "devices.py",
        """    if device.tls is not None:
        raise Refused("6 Repeated")
""",
        "",
    ),
    WrongBody(
        "a common name may have one symbol more",
        "devices.py",
        "len(name) <= MOST_COMMON_NAME",
        "len(name) <= MOST_COMMON_NAME + 1",
    ),
    WrongBody(
        "tls with an empty name is tls",
        "devices.py",
        "set_tls(devices[-1], rest if blank else None)",
        "set_tls(devices[-1], rest or None)",
    ),
    WrongBody(
        "a common name is one field",
        "devices.py",
        'if word in ("device", "at", "connections") and " " in rest:',
        'if word in ("device", "at", "tls", "connections") and " " in rest:',
    ),
    WrongBody(
        "a key that stands three times is told of the second",
        "devices.py",
        "        if len(text) < LEAST_KEY:",
        "        first[text] = line\n        if len(text) < LEAST_KEY:",
    ),
    WrongBody(
        "percent forms are in lower case",
        "texts.py",
        ":02X}",
        ":02x}",
    ),
    WrongBody(
        "all symbols are tried, and not only the least of those that are alike",
        "decisions.py",
        "for text, (state,) in states_with_least_texts(patterns_of(entries)):",
        "for text, (state,) in states_with_least_texts(\n"
        "        patterns_of(entries), symbols_of=lambda _: map(chr, range(0x20, 0x7F))\n    ):",
        shows=False,
    ),
]
