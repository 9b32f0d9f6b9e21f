"""A message in lines, one for each variable, as `dispatch decode --long` writes it: by the tables of docs/FORMATS.md, and by no code of
the program."""

NAMES = {15: "conditional emergency stop", 16: "unconditional emergency stop", 18: "revocation of an emergency stop", 24: "general message"}
NAMES |= {136: "train position report", 146: "acknowledgement", 147: "acknowledgement of an emergency stop"}
PACKETS = {0: "position", 1: "position by two balise groups", 65: "temporary speed restriction", 66: "revocation of a restriction"}
WAYS = ("reverse", "nominal")
ANSWERS = ("conditional stop accepted, end of authority changed", "conditional stop accepted, no change", "unconditional stop accepted", "stop rejected")
WHOLE = ("nothing is known of whether the train is whole", "the train is whole", "the train is whole", "the train is not whole")
STEPS = (1, 10, 100)  # units of 10 cm, by Q_SCALE


class Lines:
    """The lines of a message, taken from its bits in turn."""

    def __init__(self, digits):
        self.bits = "".join(f"{byte:08b}" for byte in bytes.fromhex(digits))
        self.place, self.scale = 0, 0
        self.text = "  bit width  variable             value  meaning\n"

    def left(self):
        return len(self.bits) - self.place

    def take(self, name, width, meaning):
        """Adds the line of a variable, and gives its value."""
        value = int(self.bits[self.place : self.place + width], 2)
        said = meaning(value) if callable(meaning) else meaning
        self.text += f"{self.place:>5} {width:>5}  {name:<15} {value:>10}  {said}\n"
        self.place += width
        return value

    def pieces(self, count, meaning):
        """Bits that are no variable, by 32."""
        while count:
            self.take("-", min(count, 32), meaning)
            count -= min(count, 32)

    def length(self, value):
        return f"{value * STEPS[self.scale] / 10:.1f} m"

    def distance(self, value):
        return "unknown" if value == 32767 else self.length(value)

    def reference(self, value):
        return self.length(value - 65536 if value >= 32768 else value)

    def take_scale(self):
        self.scale = self.take("Q_SCALE", 2, lambda value: f"in units of {('10 cm', '1 m', '10 m')[value]}")


def time(value):
    return "unknown" if value == 2**32 - 1 else f"{value // 100}.{value % 100:02} s"


def group(value):
    return "unknown" if value == 2**24 - 1 else f"NID_C {value >> 14}, NID_BG {value & 16383}"


def way(third):
    return lambda value: (*WAYS, third, "spare")[value]


def speed(value):
    return f"{value * 5} km/h"


def to_train(lines, number):
    lines.take("M_ACK", 1, lambda value: "the train has to acknowledge it" if value else "the train need not acknowledge it")
    lines.take("NID_LRBG", 24, group)
    if number == 24:
        while lines.left() >= 8:
            packet_to_train(lines)
        return
    lines.take("NID_EM", 4, "identifier of the emergency stop")
    if number == 15:
        lines.take_scale()
        lines.take("D_REF", 16, lines.reference)
        lines.take("Q_DIR", 2, way("both"))
        lines.take("D_EMERGENCYSTOP", 15, lines.length)


def packet_to_train(lines):
    number = lines.take("NID_PACKET", 8, lambda value: PACKETS[value])
    lines.take("Q_DIR", 2, way("both"))
    lines.take("L_PACKET", 13, lambda value: f"{value} bits")
    if number == 65:
        lines.take_scale()
    lines.take("NID_TSR", 8, "identifier of the restriction")
    if number == 65:
        lines.take("D_TSR", 15, lines.length)
        lines.take("L_TSR", 15, lines.length)
        lines.take("Q_FRONT", 1, lambda value: f"the train's length {'does not delay' if value else 'delays'} the end")
        lines.take("V_TSR", 7, speed)


def from_train(lines, number):
    lines.take("NID_ENGINE", 24, "on-board equipment")
    if number == 146:
        lines.take("T_TRAIN", 32, time)
        return
    if number == 147:
        lines.take("NID_EM", 4, "identifier of the emergency stop")
        lines.take("Q_EMERGENCYSTOP", 2, lambda value: ANSWERS[value])
    is_first = True
    while lines.left() >= 8:
        packet_from_train(lines, is_first)
        is_first = False


def packet_from_train(lines, is_first):
    start = lines.place
    number = lines.take("NID_PACKET", 8, lambda value: PACKETS.get(value, "another packet"))
    size = lines.take("L_PACKET", 13, lambda value: f"{value} bits")
    if is_first:
        position(lines, number)
    lines.pieces(start + size - lines.place, "passed over")


def position(lines, number):
    lines.take_scale()
    lines.take("NID_LRBG", 24, group)
    if number == 1:
        lines.take("NID_PRVLRBG", 24, group)
    lines.take("D_LRBG", 15, lines.distance)
    lines.take("Q_DIRLRBG", 2, way("unknown"))
    lines.take("Q_DLRBG", 2, way("unknown"))
    lines.take("L_DOUBTOVER", 15, lines.distance)
    lines.take("L_DOUBTUNDER", 15, lines.distance)
    if lines.take("Q_LENGTH", 2, lambda value: WHOLE[value]) in (1, 2):
        lines.take("L_TRAININT", 15, lambda value: f"{value}.0 m")
    lines.take("V_TRAIN", 7, speed)
    lines.take("Q_DIRTRAIN", 2, way("unknown"))
    lines.take("M_MODE", 4, "mode of the on-board equipment")
    if lines.take("M_LEVEL", 3, "level of operation") == 1:
        lines.take("NID_NTC", 8, "national system")


def by_variable(digits):
    """The lines of a message whose bytes these digits are."""
    lines = Lines(digits)
    number = lines.take("NID_MESSAGE", 8, lambda value: NAMES[value])
    lines.take("L_MESSAGE", 10, lambda value: f"{value} bytes")
    lines.take("T_TRAIN", 32, time)
    (to_train if number < 128 else from_train)(lines, number)
    lines.pieces(lines.left(), "fill bits")
    return lines.text
