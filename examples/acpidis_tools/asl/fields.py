"""A line of a field list as one of ASL (19.6.48). In a Connection ASL takes a name or the macro of a resource
descriptor, and no bytes (6.4.3.8)."""

import re

from acpidis_tools import standard
from acpidis_tools.asl import language
from acpidis_tools.asl.terms import picked, plain
from acpidis_tools.listing import NAME, SEGMENT
from acpidis_tools.resources import Bytes

UNIT = re.compile(rf"({SEGMENT}|Reserved), (\d{{1,9}})")
ACCESS = re.compile(r"(?:Extended)?Access \((0x[0-9A-F]{2}(?:, 0x[0-9A-F]{2}){1,2})\)")
LINK = re.compile(r"Connection \((.*)\)")
BUFFER = re.compile(r"Buffer \((.*)\) \{((?:[0-9A-F]{2}(?:, [0-9A-F]{2})*)?)\}")
USAGES, LEVELS = ("ResourceProducer", "ResourceConsumer"), ("ActiveHigh", "ActiveLow", "ActiveBoth")
SHARES = "Exclusive", "Shared", "ExclusiveAndWake", "SharedAndWake"
PULLS = "PullDefault", "PullUp", "PullDown", "PullNone"
LIMITS = "IoRestrictionNone", "IoRestrictionInputOnly", "IoRestrictionOutputOnly", "IoRestrictionNoneAndPreserve"
GPIO, SERIAL, I2C = 0x8C, 0x8E, 1
NO_MACRO = "a Connection of bytes that no macro here has"


def element(text, tell):
    """An element of a field list as ASL; the unit that it names, and the name that it uses, or None."""
    unit, access, link = UNIT.fullmatch(text), ACCESS.fullmatch(text), LINK.fullmatch(text)
    if unit and unit[1] == "Reserved":
        return f", {unit[2]},", None, None
    if unit:
        if unit[2] == "0":
            tell(f"the unit {unit[1]} without a bit")
        return f"{plain(unit[1], tell)}, {unit[2]},", unit[1], None
    if link:
        return connection(link[1], tell) + ",", None, link[1] if NAME.fullmatch(link[1]) else None
    if not access:
        raise ValueError("none of a listing")
    kind, attribute, *length = (int(number, 16) for number in access[1].split(", "))
    if bool(length) != (attribute in language.EXTENDED):
        tell(f"{'an ExtendedAccess' if length else 'an Access'} of the attribute {attribute}")
    more = f"{language.EXTENDED.get(attribute, 'AttribBytes')} (0x{length[0]:02X})" if length else f"0x{attribute:02X}"
    return f"AccessAs ({picked(standard.ACCESS_TYPES, kind, 'the access type', tell)}, {more}),", None, None


def connection(inner, tell):
    if NAME.fullmatch(inner):
        return f"Connection ({plain(inner, tell)})"
    form = BUFFER.fullmatch(inner)
    if not form:
        raise ValueError("none of a listing")
    code = bytes.fromhex(form[2].replace(",", ""))
    try:
        # iasl writes the size of its buffer in one or two bytes.
        if form[1] != f"0x{len(code):0{2 if len(code) < 256 else 4}X}" or 3 + Bytes(code).number(1, 2) != len(code):
            raise ValueError(NO_MACRO)
        return f"Connection ({gpio(code) if code[0] == GPIO else serial(code)})"
    except (ValueError, IndexError):
        tell(NO_MACRO)
        return f"// Connection ({inner})"


def source(name):
    """The path of a controller, with its closing 00."""
    if name[-1:] != b"\0" or not re.fullmatch(rb"[ !#-~]*", name[:-1]):
        raise ValueError(NO_MACRO)
    return '"' + name[:-1].decode().replace("\\", "\\\\") + '"'


def vendor(code):
    return f"RawDataBuffer () {{{', '.join(f'0x{byte:02X}' for byte in code)}}}" if code else ""


def gpio(code):
    """GpioInt or GpioIo, whose pins, path and vendor's bytes follow each other (6.4.3.8.1)."""
    usage, flags, strength, debounce = (Bytes(code).number(at, 2) for at in (5, 7, 10, 12))
    pins, path, more, vendors = (Bytes(code).number(at, 2) for at in (14, 17, 19, 21))
    if (code[3], pins, more + vendors) != (1, 23, len(code)) or usage > 1 or not pins < path < more or path - pins & 1:
        raise ValueError(NO_MACRO)
    if code[4] == 1 and not flags & ~0x1B:
        kind, parts = "GpioIo", (SHARES[flags >> 3], PULLS[code[9]], debounce, strength, LIMITS[flags & 3])
    elif code[4] == 0 and not flags & ~0x1F and not strength and path - pins == 2:
        kind, trigger = "GpioInt", "Edge" if flags & 1 else "Level"
        parts = trigger, LEVELS[flags >> 1 & 3], SHARES[flags >> 3], PULLS[code[9]], debounce
    else:
        raise ValueError(NO_MACRO)
    numbers = ", ".join(map(str, Bytes(code).numbers(pins, 2, (path - pins) // 2)))
    parts += source(code[path:more]), code[16], USAGES[usage], "", vendor(code[more:])
    return f"{kind} ({', '.join(map(str, parts))}) {{{numbers}}}"


def serial(code):
    """I2cSerialBus or I2cSerialBusV2 (6.4.3.8.2.1)."""
    version, bus, flags = code[3], code[5], code[6]
    ten_bits, length, address = (Bytes(code).number(at, 2) for at in (7, 10, 16))
    if (code[0], bus, code[9]) != (SERIAL, I2C, 1) or version not in (1, 2) or length < 6:
        raise ValueError(NO_MACRO)
    if ten_bits > 1 or flags > (3, 7)[version - 1]:
        raise ValueError(NO_MACRO)
    parts = [
        address, ("ControllerInitiated", "DeviceInitiated")[flags & 1], int.from_bytes(code[12:16], "little"),
        ("AddressingMode7Bit", "AddressingMode10Bit")[ten_bits], source(code[12 + length :]), code[4],
        USAGES[flags >> 1 & 1], "", *([SHARES[flags >> 2]] if version == 2 else []), vendor(code[18 : 12 + length]),
    ]  # fmt: skip
    return f"I2cSerialBus{'V2' if version == 2 else ''} ({', '.join(map(str, parts))})"
