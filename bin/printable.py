"""How the commands that people call tell names: what isn't seen, moves the cursor or turns a line is told by the digits
of its bytes, as `stands_as_digits` in crates/view_forms/specs/Shown.antt has it of a serial text.
"""
import argparse
import re

HIDDEN = re.compile("[\x00-\x1f\x7f-\x9f\xad\u061c\u180e\u200b-\u200f\u2028-\u202e\u2060-\u206f\ufeff\ufff9-\uffff"
                    "\ud800-\udfff\U000e0000-\U000e0fff]")


def printable(name):
    """A name with the signs that aren't seen, or that move the cursor, as the digits of their bytes."""
    return HIDDEN.sub(lambda it: "".join(f"\\x{byte:02x}" for byte in it[0].encode("utf-8", "surrogateescape")), name)


class Words(argparse.ArgumentParser):
    """The words of a command. What is said of those that aren't taken names them so."""

    def error(self, message):
        super().error(printable(message))
