"""Scripts of `unary` and `replay` whose last line is bad, with what the program says of it."""

HEX, NUMBERED = "HEX is not bytes in lower-case hexadecimal, or - for none", "is not a number below 2^"
SPACED = "a space stands before its first word, behind its last, or beside another"
# Scripts whose last line is bad, and what is said of it.
BAD_LINES = {
    "unary": [
        ("instance a", "it is not instance NAME QUOTA"),
        ("instance a 1 0", "it is not instance NAME QUOTA"),
        ("instance a 1x", "QUOTA is not a number from 0 to 1099511627776"),
        ("instance a 1099511627777", "QUOTA is not a number from 0 to 1099511627776"),
        ("instance A 1", "NAME is not 1 to 64 of a-z, 0-9 and -, or it is a word of resource names"),
        ("instance a 1\ninstance a 2", "an instance before it has the name"),
        ("instance a 1\nput a -\ninstance b 2", "instances are configured before all other lines"),
        ("instance a 1\nput a", "it is not put NAME HEX"),
        ("instance a 1\nput b 61", "no instance before it has the name"),
        ("instance a 1\nput a 6G", HEX),
        ("instance a 1\nput a 6", HEX),
        ("instance a 1\nput a 6A", HEX),
        ("instance a 1\ncall a Find 61", "METHOD is not FindMissingBlobs, BatchUpdateBlobs or BatchReadBlobs"),
        ("instance a 1\ncall a 61", "it is not call NAME METHOD HEX"),
        ("instance  a 1", SPACED),
        (" instance a 1", SPACED),
        ("instance a 1\r", "it ends with a carriage return"),
        ("instance \u00e4 1", "a byte of it is not ASCII"),
    ],
    "replay": [
        ("instance a 1", "it is not instance NAME QUOTA SLOTS [PARENT]"),
        ("instance a 1 65", "SLOTS is not a number from 0 to 64"),
        ("instance a 1 0 b", "PARENT is not another instance, or it has a parent itself"),
        ("instance a 1 0\nopen 0 0", "it is not open M I C"),
        ("instance a 1 0\nopen 0 0 7 7", "it is not open M I C"),
        ("instance a 1 0\nopen -1 0 7", f"M {NUMBERED}64"),
        ("instance a 1 0\nopen 18446744073709551616 0 7", f"M {NUMBERED}64"),
        ("instance a 1 0\nopen 0 0 4294967296", f"C {NUMBERED}32"),
        ("instance a 1 0\ntook 0 0 7 x", f"N {NUMBERED}32"),
        ("instance a 1 0\nbytes 0 0 7 x", HEX),
        ("instance a 1 0\nexit 0 0 1 -2147483649 - -", "CODE is not a number from -2147483648 to 2147483647"),
        ("instance a 1 0\nexit 0 0 1 0 - - out", "a word behind the others is not PATH=HEX"),
        ("instance a 1 0\nfail 0 0", "it is not fail M I JOB"),
        ("instance a 1 0\nshut 0 0", "it begins with none of instance, open, closed, bytes, took, tick, exit and fail"),
    ],
}
