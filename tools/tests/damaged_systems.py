"""System files, each with one change from one that the program takes, and the code of the refusal."""

# The fields that have to be there.
FIELDS = [
    ("version", "1"),
    ("image", '"k.bin"'),
    ("guest_memory", "65536"),
    ("real_time_memory", "65536"),
]

# Why it is a case, the field, its value (left out where that is empty; of no field: one more line), and the code. None is where only the
# program says: the reader takes the file, and it may still name modules that aren't there.
CHANGES = [
    ("the fields that have to be there", "", "", None),
    ("a number in hex", "version", "0x1", None),
    ("a sign", "version", "+1", None),
    ("the second version", "version", "2", None),
    ("a version that is to come", "version", "3", "11"),
    ("no version", "version", "0", "11"),
    ("a number whose low byte is 1", "version", "257", "11"),
    ("a negative version", "version", "-1", "11"),
    ("a version with a point", "version", "1.0", "11"),
    ("a version as a text", "version", '"1"', "11"),
    ("a version that is no number", "version", "true", "11"),
    ("a version in an array", "version", "[1]", "11"),
    ("a version in a table", "version", "{ a = 1 }", "11"),
    ("no field `version`", "version", "", "11"),
    ("a key without a value", "version", " ", "10"),
    ("a leading zero", "version", "01", "10"),
    ("a literal text", "image", "'k.bin'", None),
    ("an escape", "image", '"\\u006b.bin"', None),
    ("a text of several lines", "image", '"""k.bin"""', None),
    ("an empty name", "image", '""', "11"),
    ("a name that is a number", "image", "1", "11"),
    ("a name in an array", "image", '["k.bin"]', "11"),
    ("no field `image`", "image", "", "11"),
    ("a text without quotes", "image", "k.bin", "10"),
    ("a text without its end", "image", '"k.bin', "10"),
    ("no escape", "image", '"\\q"', "10"),
    ("a name of 255 bytes", "image", '"' + 'n' * 255 + '"', None),
    ("a name of 256 bytes", "image", '"' + 'n' * 256 + '"', "11"),
    ("255 bytes in 128 characters", "image", '"' + 'é' * 127 + 'n' * 1 + '"', None),
    ("256 bytes in 128 characters", "image", '"' + 'é' * 128 + 'n' * 0 + '"', "11"),
    ("a number in groups", "guest_memory", "65_536", None),
    ("one step more", "guest_memory", "69632", None),
    ("the most", "guest_memory", "16777216", None),
    ("a step above the most", "guest_memory", "16781312", "11"),
    ("a step below the least", "guest_memory", "61440", "11"),
    ("no multiple of 4,096", "guest_memory", "65537", "11"),
    ("no multiple of 4,096", "guest_memory", "69631", "11"),
    ("nothing", "guest_memory", "0", "11"),
    ("a negative size", "guest_memory", "-65536", "11"),
    ("a size with a point", "guest_memory", "65536.0", "11"),
    ("a size as a text", "guest_memory", '"65536"', "11"),
    ("a size whose low 32 bits are 65,536", "guest_memory", "4295032832", "11"),
    ("a number above 64 bits with a sign", "guest_memory", "9223372036854775808", "10"),
    ("a date", "guest_memory", "1979-05-27", "11"),
    ("no field `guest_memory`", "guest_memory", "", "11"),
    ("a number in bits", "real_time_memory", "0b1_0000_0000_0000_0000", None),
    ("the most", "real_time_memory", "4194304", None),
    ("a step above the most", "real_time_memory", "4198400", "11"),
    ("a step below the least", "real_time_memory", "61440", "11"),
    ("no multiple of 4,096", "real_time_memory", "65537", "11"),
    ("no field `real_time_memory`", "real_time_memory", "", "11"),
    ("no modules", "", "modules = []", None),
    ("a comma at the end", "", 'modules = ["m", \'n\',]', None),
    ("a comment in an array", "", "modules = [\n  # none\n]", None),
    ("16 modules", "", "modules = " + str([f"m{number}" for number in range(16)]), None),
    ("17 modules", "", "modules = " + str([f"m{number}" for number in range(17)]), "11"),
    ("modules as a text", "", 'modules = "m.elf"', "11"),
    ("an empty name of a module", "", 'modules = [""]', "11"),
    ("a module that is no name", "", 'modules = ["m", 1]', "11"),
    ("an array in an array", "", 'modules = [["m"]]', "11"),
    ("an array of tables", "", "[[modules]]", "11"),
    ("an array without its end", "", 'modules = ["m"', "10"),
    ("a script", "", 'script = "d.txt"', None),
    ("an empty name of a script", "", 'script = ""', "11"),
    ("a script in an array", "", 'script = ["d.txt"]', "11"),
    ("two values", "", 'script = "a" "b"', "10"),
    ("an unknown field", "", "speed = 1", "11"),
    ("another case", "", "Version = 1", "11"),
    ("an empty key", "", '"" = 1', "11"),
    ("an unknown table", "", "[speed]", "11"),
    ("a field twice", "", "version = 1", "10"),
    ("a field as a table too", "", "[image]", "10"),
    ("a field that has no part", "", "image.name = 1", "10"),
    ("a key alone", "", "script", "10"),
    ("a comment", "", "# a comment", None),
    ("a control character", "", "# \x01", "10"),
]

# Whole files.
WHOLE = [
    ("an empty document has no fields", b"", "11"),
    ("a byte FFh is no UTF-8", b"# \xff\n", "10"),
    ("a character that is cut off", b"# \xc3", "10"),
    ("a mark of the byte order alone", b"\xef\xbb\xbf", "11"),
    ("a byte 0", b"\0", "10"),
    ("all forms of values",
     b"# a comment\n"
     b"'version' = 0x1 # one\n"
     b"\"image\" = 'k.bin'\n"
     b"guest_memory = 65_536\n"
     b"real_time_memory = 0b1_0000_0000_0000_0000\n"
     b"modules = [\n"
     b"  # none\n"
     b"]\n", ""),
]
