"""How much a report keeps of a run, so that neither its memory nor its file grows with the number of tiles."""

LAYERS = 300  # names of layers that are counted each for itself
REASONS = 100  # reasons for which tiles weren't judged, likewise
FIRST_LAYERS = 5  # layers of a code in the table of all codes
LISTED = 10  # tiles that are listed for each code, each kind of advice and each reason
PICTURED = 3  # of them, those with a picture
SLOWEST = 20
WORST_ROWS = 50
FAULTS = 200_000  # faults that can be looked for in the report
NAME_LENGTH = 160  # letters of a name or a reason, whose end is left out where it is longer

TILE_SIZE = 256 << 10  # bytes of a tile with a picture
PICTURES_SIZE = 8 << 20  # bytes of all these tiles, packed, and of what is drawn of them
