"""What can be wrong with bytes, with actions and with their fields."""
from __future__ import annotations


class CodecError(ValueError):
    """Why bytes aren't control sequences one after the other. The refused sequence begins at `start`, and `at` is the place of the
    fault, counted from there. `status` is the number of what is wrong, as `enum csicodec_status` of csicodec.h has it: 1 for bytes that
    don't begin with ESC [, 2 for a byte that can't be in a control sequence, 3 for a number above 2^63 - 1, 4 for an end before the
    final byte, 6 for what stands for no action.
    """

    def __init__(self, message: str, start: int = 0, at: int = 0, status: int = 0) -> None:
        super().__init__(message)
        self.start, self.at, self.status = start, at, status


class FieldError(TypeError, ValueError):
    """A field can't have this value: it is of another type, or out of its range. The message names the type and the field."""
