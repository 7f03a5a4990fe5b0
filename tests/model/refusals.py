"""The reasons why bytes are refused, and how many are missing."""


class Refused(Exception):
    """The first rule that the bytes break, as the programs under test print it."""


class Lacks(Exception):
    """This many bytes are missing."""

    def __init__(self, count):
        super().__init__(count)
        self.count = count

    def __str__(self):
        return f"needs {self.count}"


def rule(text):
    return Refused(f"invalid {text}")


def too_short():
    return Refused("io")


def no_string():
    return Refused("utf8")
