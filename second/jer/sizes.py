"""01: "House sizes: 4,096 table rows, 65,536 bytes of names and of text,
32 open brackets at one time, 64 members to a type." """

TABLE_ROWS = 4096
NAMES_BYTES = 65536
TEXT_BYTES = 65536
OPEN_BRACKETS = 32
MEMBERS = 64

# 01, Type table: "its name, 1 to 128 bytes of UTF-8".
NAME_BYTES = 128
