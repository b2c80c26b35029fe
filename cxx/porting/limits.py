"""Not proved (README.md). The limits and traps of the language in the user's words."""

LIMITS = {
    "E03": "the ported program has more than 262,144 words: port a part of it",
    "E04": "the ported program has more than 1,048,576 bytes: port a part of it",
    "E11": "statements or an expression nest too deeply: write a function for the inner part",
    "E50": "the program has more than 256 classes",
    "E51": "a class has more than 256 members: write an array of those that are alike",
    "E52": "more than 256 functions change something, with those that the port adds: port a part of the program",
    "E53": "the program has more than 256 functions that only compute: port a part of it",
    "E54": "a function has more than 32 parameters: write a struct",
    "E55": "a function has more than 256 locals: write two functions",
    "E56": "an array has more than 1,000,000 items",
    "E57": "the program has more than 256 for loops: write a function that is called twice, or while",
}
TRAPS = {
    "NullPointer": "a null pointer is followed",
    "OutOfRange": "an index is out of range",
    "ZeroDivisor": "a division by zero",
    "HeapFull": "more than 1,000,000 objects are made, or 4,000,000 values: nothing is freed, so reuse objects",
}
