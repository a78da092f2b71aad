"""What the library's calls return, as mvtgate.h has it."""

OK = 0
NO = 1
NO_MEMORY = 2
NO_ROOM = 3
NO_PROFILE = 4
NOT_JSON = 5
NOT_A_FAULT = 6
OUT_OF_RANGE = 7
MENDED = 8
