"""The constants of include/plate_track.h, without their PLATE_TRACK_."""

VERSION = 2
GREATEST = 4294967295

MOST_VERTICES = 256
MOST_EDGES = 2048
GREATEST_WEIGHT = 65535
MOST_LANDMARKS = 4
MOST_CHANGES = 1024
CHANGE_WORDS = 5
LONGEST_SCHEDULE = 4096
MOST_SOURCES = 256
LONGEST_TEXT = 32782
PROPERTIES = 5
REPLY_WORDS = 8

# properties
TIME, HANDOVERS, HEADROOM, WORST, REACH = 1, 2, 3, 4, 5

# sides
FORWARD, BACKWARD = 0, 1

# what becomes of a vertex, in a preview
SAME, GAINED, LOST, MOVED = 0, 1, 2, 3

# kinds of change
INSERT, DELETE, UPDATE = 1, 2, 3

# refusals
ACCEPTED, SIZE, SHORT, LANDMARKS, TABLE, PROPERTY, VERTEX = 0, 1, 2, 3, 4, 5, 6
KIND, LOOP, WEIGHT, PRESENT, ABSENT, FULL, UNSETTLED, TEXT, NO_ROUTE = 7, 8, 9, 10, 11, 12, 13, 14, 15

# the word of each refusal number; in parentheses document 01's, where it is another
WORDS = (
    "accepted",
    "size",
    "short",
    "landmarks (posts)",
    "table",
    "property",
    "vertex (station)",
    "kind",
    "loop",
    "weight (figure)",
    "present",
    "absent",
    "full",
    "unsettled (restless)",
    "text",
    "no route",
)


def no_route(prop):
    """The word that stands where there is no route, for a property of 1 to 5."""
    return 0 if prop in (HEADROOM, REACH) else GREATEST


def row_words(landmarks, n):
    """The least length of each row list."""
    return landmarks * PROPERTIES * n
