"""Images in ELF32, each with one change from a small one, and the rule that it breaks."""

# One part of two bytes at address 0, a jump to itself.
SMALL = bytes.fromhex(
    "7f454c46010101000000000000000000020003000100000000000000340000000000000000000000340020000100000000000000010000005400000000000000"
    "0000000002000000020000000000000000000000ebfe")

# What is changed, at which place, to which bytes, and the code of the refusal: "" where the program takes the image, and None where
# only the program says, since the loader takes it and it may still not fit on the side.
CHANGES = [
    ("the file itself", 0, "", ""),
    ("EI_MAG0", 0, "7e", "20.2"),
    ("EI_MAG1", 1, "46", "20.2"),
    ("EI_MAG2", 2, "4d", "20.2"),
    ("EI_MAG3", 3, "47", "20.2"),
    ("the magic number comes before the class", 3, "4702", "20.2"),
    ("ELFCLASS64", 4, "02", "20.3"),
    ("no class", 4, "00", "20.3"),
    ("the highest byte first", 5, "02", "20.3"),
    ("no encoding", 5, "00", "20.3"),
    ("the encoding comes before the type", 5, "020100000000000000000001", "20.3"),
    ("EI_VERSION isn't read", 6, "00", None),
    ("EI_OSABI isn't read", 7, "09", None),
    ("ET_NONE", 16, "00", "20.4"),
    ("ET_REL", 16, "01", "20.4"),
    ("ET_DYN", 16, "03", "20.4"),
    ("the type's high byte", 16, "0201", "20.4"),
    ("the type comes before the machine", 16, "01003e", "20.4"),
    ("another machine", 18, "3e", "20.5"),
    ("the machine's high byte", 18, "0301", "20.5"),
    ("EV_NONE", 20, "00", "20.5"),
    ("a version that isn't there", 20, "02", "20.5"),
    ("the version's highest byte", 20, "01000001", "20.5"),
    ("any entry", 24, "ffffffff", None),
    ("a table that ends with the file, whose part isn't loaded", 28, "36", None),
    ("a table that ends one byte behind the file", 28, "37", "20.6"),
    ("a table far behind the file", 28, "00000080", "20.6"),
    ("a table whose end wraps to 0", 28, "e0ffffff", "20.6"),
    ("a table at the last place", 28, "ffffffff", "20.6"),
    ("e_shoff, e_flags and e_ehsize aren't read", 32, "ffffffffffffffff0000", None),
    ("smaller program headers", 42, "1f", "20.6"),
    ("larger program headers", 42, "21", "20.6"),
    ("e_phentsize's high byte", 42, "2001", "20.6"),
    ("no program headers", 44, "00", ""),
    ("no program headers, of any size", 42, "1f0000", None),
    ("a second program header that isn't there", 44, "02", "20.6"),
    ("64 program headers that aren't there", 44, "40", "20.6"),
    ("65 program headers", 44, "41", "20.6"),
    ("e_phnum's high byte", 44, "0101", "20.6"),
    ("the fields of the section headers aren't read", 46, "ffffffffffff", None),
    ("PT_NULL", 52, "00", None),
    ("PT_DYNAMIC, wherever it is", 52, "02000000ff", None),
    ("PT_INTERP", 52, "03", "20.9"),
    ("PT_INTERP, wherever it is", 52, "03000000ffffffff", "20.9"),
    ("PT_NOTE", 52, "04", None),
    ("PT_GNU_STACK", 52, "51e57464", None),
    ("p_type's highest byte", 52, "01000001", None),
    ("a part that ends one byte behind the file", 56, "55", "20.7"),
    ("a part whose end wraps to 0", 56, "feffffff", "20.7"),
    ("a part at the last place", 56, "ffffffff", "20.7"),
    ("a part of no bytes at the end of the file", 56, "56000000000000000000000000", None),
    ("a part of no bytes behind the file", 56, "57000000000000000000000000", "20.7"),
    ("any address", 60, "ffffffff", None),
    ("p_paddr isn't read", 64, "ffffffff", None),
    ("more bytes than the file has, which comes before more than in memory", 68, "03", "20.7"),
    ("the most bytes", 68, "ffffffff", "20.7"),
    ("a part without a size", 68, "0000000000", ""),
    ("bytes, but no size in memory", 72, "00", "20.8"),
    ("one byte fewer in memory", 72, "01", "20.8"),
    ("the greatest size in memory", 72, "ffffffff", None),
    ("p_flags and p_align aren't read", 76, "0000000003", None),
    ("a part of which the last byte is outside", 60, "ffff", "21"),
]

# Whole files.
WHOLE = [
    ("a header that is cut", "20.1", bytes.fromhex(
        "7f454c460101010000000000000000000200030001000000001001003400000000000000000000003400200003000000000000")),
    ("a part that ends behind the side", "21", bytes.fromhex(
        "7f454c460101010000000000000000000200030001000000fdff000034000000000000000000000034002000010000000000000001000000"
        "54000000fdff0000fdff00000400000004000000070000000100000090909090")),
    ("two parts that overlap", "22", bytes.fromhex(
        "7f454c4601010100000000000000000002000300010000000000000034000000000000000000000034002000020000000000000001000000"
        "7400000000000000000000000200000002000000070000000100000001000000760000000100000001000000020000000200000007000000"
        "0100000090909090")),
    ("an object file", "20.4", bytes.fromhex(
        "7f454c4601010100000000000000000001000300010000000000000000000000a600000000000000340000000000280006000000b8000000"
        "00e8fcffffffc340c30000000000000000000000000000000000000000010000000000000000000000120001000d0000000b000000000000"
        "00020001000f00000000000000000000000100020000696e69745f6d6f64756c650066006400010000000103000006000000020200000000"
        "0000000000000000000000000000000000000000000000000000000000000000000000000000000000000100000006000000000000003400"
        "00000d0000000000000000000000100000000000000000000000010000000300000000000000410000000400000000000000000000000400"
        "0000000000000000000002000000000000000000000045000000400000000400000001000000040000001000000000000000030000000000"
        "0000000000008500000011000000000000000000000001000000000000000000000009000000000000000000000096000000100000000300"
        "0000010000000400000008000000")),
]
