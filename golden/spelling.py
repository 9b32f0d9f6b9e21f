"""The bytes of a message whose text is given, as `dispatch encode` writes them: by the tables of docs/FORMATS.md, and by no code of the program.
The text is a right one. What it does not name is as of a train that stands."""

from generated import spelled

WIDTHS = {"stamp": 32, "ack": 1, "lrbg": 24, "em": 4, "scale": 2, "ref": 16, "dir": 2, "stop": 15, "engine": 24, "acked": 32, "answer": 2}
WIDTHS |= {"tsr": 8, "start": 15, "length": 15, "front": 1, "speed": 7, "previous": 24, "distance": 15, "side": 2, "over": 15, "under": 15}
PACKET_BITS = {"0": 114, "1": 138, "65": 71, "66": 31}
STANDING = [(0, 2), (0, 7), (1, 2), (0, 4), (3, 3)]  # Q_LENGTH, V_TRAIN, Q_DIRTRAIN, M_MODE, M_LEVEL
UNKNOWN = 32_767
UNITS = (1, 10, 100)  # of 10 cm, by Q_SCALE


def spelling(text):
    """The bytes of a message, in upper case hexadecimal."""
    kind, *words = text.split(" ")
    fields, is_from_train = [], False
    while words:
        word = words.pop(0)
        if word in WIDTHS:
            fields.append((int(words.pop(0)) % 2 ** WIDTHS[word], WIDTHS[word]))
        else:
            fields += packet_head(word, words)
            is_from_train |= word in ("0", "1")
    fields += STANDING * is_from_train
    bits = 18 + sum(width for _, width in fields)
    return spelled((int(kind), 8), (-(-bits // 8), 10), *fields)


def packet_head(number, words):
    """NID_PACKET and L_PACKET of a packet; Q_DIR stands between them in a packet to a train, and is then taken from its words."""
    head, length = [(int(number), 8)], [(PACKET_BITS[number], 13)]
    if number in ("0", "1"):
        return head + length
    _, way, *words[:] = words
    return [*head, (int(way), 2), *length]


def report_text(groups, engine, stamp, line, place, is_up, doubt):
    """The text of the report of a train at a place, for balise groups as (number, line, place, whether up is nominal)."""
    behind = [group for group in groups if group[1] == line and (group[2] <= place if is_up else group[2] >= place)]
    nid, _, at, is_nominal_up = min(behind, key=lambda group: (abs(place - group[2]), group[0]))
    for scale, unit in enumerate(UNITS):
        distance, rest = divmod(abs(place - at), unit)
        over, under = -(-doubt // unit), -(-(doubt + rest) // unit)
        if max(distance, over, under) < UNKNOWN:
            break
    way = int(is_up == is_nominal_up)
    place = f"distance {distance} dir {way} side {way} over {over} under {under}"
    return f"136 stamp {stamp} engine {engine} 0 scale {scale} lrbg {nid} {place}"
