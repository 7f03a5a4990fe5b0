"""How the translator stops."""


class Unknown(Exception):
    """Something of LLVM's language that the translator doesn't know, with the text that has it."""

    def __init__(self, what, text):
        super().__init__(f"{what}: {text[:300]}")
