"""What ASL and iasl have for the numbers and words of a listing (ACPI 6.5, chapters 19 and 20)."""

from acpidis_tools.standard import WORDS, tables_in

# The numbers of iasl's messages that are turned off, with what each says; those where the text isn't to be changed; and
# the type of an External by the kind of a row, where it is known
OFF, OFF_UNCHANGED, OBJECT_OF = tables_in("asl/messages.txt")

# The attributes of an access that have a length behind them.
EXTENDED = {0x0B: "AttribBytes", 0x0E: "AttribRawBytes", 0x0F: "AttribRawProcessBytes"}
MATCHES, OBJECTS, TAKEN, TARGETED = (WORDS[name] for name in ("MATCHES", "OBJECTS", "TAKEN", "TARGETED"))
MOST_SYNC_LEVEL = 15

# The mnemonics that ASL has otherwise
RENAMED = {"DataRegion": "DataTableRegion", "VarPackage": "Package"}
FLAGS = {"Field": 1, "IndexField": 2, "BankField": 3}
SIZED = ("Buffer", "Package", "VarPackage")
# The operators of which ASL doesn't have each part of AML, with the place of that.
PICKY = {
    ("RefOf", 0): {"RefOf"}, ("CondRefOf", 0): {"RefOf"}, ("CopyObject", 1): {"Debug", "Index", "RefOf", "DerefOf"},
    ("LoadTable", 3): {"Zero"},
}  # fmt: skip
# What DerefOf takes beside names, locals and arguments.
REFERENCES = {"Index", "RefOf", "DerefOf", "Store"}
