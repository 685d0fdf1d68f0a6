"""What info is to say of register words, a line each: a second account, so that a change of one shows. What a register's data means
follows the paper and the data sheet; the words and columns are info's own, and whoever wrote this had read its source."""

PIXELS = {0x80: ("HCR", "N"), 0x84: ("HSWR", "HS"), 0x88: ("HBSR", "BS"), 0x8C: ("HDSR", "DS"), 0x90: ("HDER", "DE"), 0x94: ("HBER", "BE")}
RASTERS = dict(zip(range(0xA0, 0xC0, 4), (("VCR", "V"), ("VSWR", "VS"), ("VBSR", "VBS"), ("VDSR", "VDS"), ("VDER", "VDE"), ("VBER", "VBE"),
                                          ("VCSR", "VCS"), ("VCER", "VCE"))))
CONTROL, FREQUENCY, HCSR, HIR = 0xE0, 0xC0, 0x98, 0x9C


def name(address):
    if address < 0x40:
        return f"palette {address // 4}"
    if 0x44 <= address <= 0x4C:
        return f"cursor {(address - 0x40) // 4}"
    if 0x60 <= address <= 0x7C:
        return f"stereo {(7, 0, 1, 2, 3, 4, 5, 6)[(address - 0x60) // 4]}"
    named = {0x40: "border", CONTROL: "control", FREQUENCY: "sound frequency", HCSR: "HCSR", HIR: "HIR"}
    return named.get(address) or {**PIXELS, **RASTERS}.get(address, ("reserved",))[0]


def counted(n, thing):
    return f"{n} {thing}" + "s" * (n != 1)


def colour(data):
    return f"red {data & 15}, green {data >> 4 & 15}, blue {data >> 8 & 15}" + ", supremacy" * (data >> 12 & 1)


def stereo(data):
    left = 7 - (data & 7)
    return f"left {left}/6, right {6 - left}/6" if data & 7 else "0, which sound refuses"


def control(data):
    rate, depth = (8, 12, 16, 24)[data & 3], 1 << (data >> 2 & 3)
    said = f"{rate} MHz, depth {depth}, request point {data >> 4 & 3}, " + ("composite sync" if data >> 7 & 1 else "separate syncs")
    modes = [", interlace"] * (data >> 6 & 1) + [f", test mode {(data >> 14 & 3) - 1}"] * (data >> 14 & 3 > 0) + [", test mode 3"] * (data >> 8 & 1)
    return said + "".join(modes)


def across(address, data, depth):
    """A horizontal place: of pairs of pixels, and of the display by the depth."""
    value, letters = data >> 14, PIXELS[address][1]
    if letters in ("DS", "DE"):
        if depth is None:
            return f"{letters} needs the depth, and control is never written"
        return f"{letters} = {counted(2 * value + {1: 19, 2: 11, 4: 7, 8: 5}[depth], 'pixel')}"
    return f"{letters} = {counted(2 * value + (2 if letters in ('N', 'HS') else 1), 'pixel')}"


def meaning(address, data, depth):
    if address <= 0x4C:
        return colour(data)
    if 0x60 <= address <= 0x7C:
        return stereo(data)
    if address in PIXELS:
        return across(address, data, depth)
    if address in RASTERS:
        return f"{RASTERS[address][1]} = {counted((data >> 14) + 1, 'raster')}"
    if address == HCSR:
        return f"CX = {counted((data >> 13) + 6, 'pixel')}" + f", sub-position {data >> 11 & 3}" * (data >> 11 & 3 > 0)
    if address == FREQUENCY:
        period = (data & 255) + 1
        return f"period {counted(period, 'microsecond')}, {(2000000 + period) // (2 * period)} hertz"
    return {HIR: "used with interlace only", CONTROL: control(data)}.get(address, "no register")


def worded(words):
    """The lines of a list of register words; the depth in force is that of the last control word."""
    addresses = [word >> 26 << 2 for word in words]
    last = [word for word in words if word >> 26 << 2 == CONTROL][-1:]
    depth = 1 << (last[0] >> 2 & 3) if last else None
    for k, (address, word) in enumerate(zip(addresses, words)):
        data = word & 0xFFFFFF
        again = " (written again below)" * (address in addresses[k + 1:])
        yield f"{k:<6}{address:02X}H  {name(address):<17}{data:06X}H  {meaning(address, data, depth)}{again}"
