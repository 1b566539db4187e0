"""Random choices, of which the same seed makes the same."""

import random


class Choices(random.Random):
    def chance(self, probability):
        return self.random() < probability

    def kind(self, weights):
        """One of the keys, each as often as its weight says."""
        return self.choices(list(weights), list(weights.values()))[0]

    def count(self, least, most):
        """A number from the one to the other, small ones more often."""
        return least + int((most - least + 1) * self.random() ** 2)

    def spoiled(self, text, extras="|*+?.[]()^\\-ab \t\r\xe9~"):
        """The text with one symbol put in, taken out, doubled or changed."""
        at = self.randrange(len(text) + 1)
        match self.randrange(4):
            case 0:
                return text[:at] + self.choice(extras) + text[at:]
            case 1:
                return text[:at] + text[at + 1 :]
            case 2:
                return text[:at] + text[at : at + 1] + text[at:]
        return text[:at] + self.choice(extras) + text[at + 1 :]
