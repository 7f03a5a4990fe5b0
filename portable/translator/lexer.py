"""The tokens of a line of LLVM's text."""
import re

from .failure import Unknown

TOKEN = re.compile(
    r"""c?"(?:[^"\\]|\\.)*"        # text
    |[%@](?:"[^"]*"|[-\w.$]+)      # a local or global name
    |\#\d+                         # a group of attributes
    |0x[HKLMR]?[0-9A-Fa-f]+        # the bits of a number with a point
    |-?\d+(?:\.\d+(?:e[+-]?\d+)?)? # a number
    |[A-Za-z_$][\w.$]*             # a word
    |\.\.\.|[][(){}<>,=*|:]        # signs
    |\S                            # anything else is an error""",
    re.VERBOSE,
)
SIGNS = set("][(){}<>,=*|:")
METADATA = re.compile(r",? ![a-zA-Z][\w.]* !\d+")


def tokens(line):
    found = TOKEN.findall(line)
    for token in found:
        if len(token) == 1 and not (token.isalnum() or token in SIGNS or token == "_"):
            raise Unknown(f"the sign {token}", line)
    return found


def without_metadata(line):
    """An instruction without what is noted beside it, which changes no value."""
    return METADATA.sub("", line)
