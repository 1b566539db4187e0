"""What became of secrets where a policy takes the place of another (docs/REVIEW.md, "Whose secrets
change")."""

from .policy import USER, find


def altered_lines(before, after):
    """What is told of them: of the users of the new policy, and then of those of the old one alone."""
    users = [subject.name for subject in after if subject.kind == USER]
    users += [
        subject.name
        for subject in before
        if subject.kind == USER and find(after, USER, subject.name) is None
    ]
    return [
        f"user {user} {word} {became}"
        for user in users
        for word in ("login", "enable")
        for became in became_of(secret_of(before, user, word), secret_of(after, user, word))
    ]


def secret_of(policy, user, word):
    """The secret, or None where the user has none or isn't there."""
    place = find(policy, USER, user)
    return None if place is None else getattr(policy[place], word)


def became_of(was, now):
    if was == now:
        return []
    if was is None:
        return ["set"]
    return ["cleared"] if now is None else ["changed"]
