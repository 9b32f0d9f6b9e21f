"""Batches that are too long for files, with what the program has to tell and draw of them, worked out from the rules;
and messages, laid out field by field."""

from itertools import product

CROWD = 2_000  # the most trains that may be enrolled


def text_of(lines):
    """The bytes of lines."""
    return "".join(f"{line}\n" for line in lines).encode()


def spelled(*fields):
    """Fields, each a number and its bits, one behind the other and filled up to whole bytes, in hexadecimal."""
    bits = "".join(f"{value:0{width}b}" for value, width in fields)
    count = -(-len(bits) // 8)
    return f"{int(bits.ljust(8 * count, '0'), 2):0{2 * count}X}"


def stop_at_once(number):
    """The message by which a train without a place is told its first stops, each by the next stamp and identifier."""
    return spelled((16, 8), (10, 10), (number, 32), (0, 1), (0xFFFFFF, 24), (number - 1, 4))


def report(engine, stamp, group, distance=0):
    """The report of a train that faces up, its front so many times 10 m above a balise group."""
    place = [(2, 2), (group, 24), (distance, 15), (1, 2), (1, 2), (0, 15), (0, 15)]
    packet = [(0, 8), (114, 13), *place, (0, 2), (0, 7), (1, 2), (0, 4), (3, 3)]
    return f"recv {spelled((136, 8), (24, 10), (stamp, 32), (engine, 24), *packet)}"


def crowd():
    """A batch of 2,000 trains without a place and a stop, which each of them is told at once; and the messages."""
    engines = range(1, CROWD + 1)
    messages = [f"{engine} {CROWD + 1} {stop_at_once(1)}" for engine in engines]
    return [*(f"enrol {engine} 2000" for engine in engines), "stop 1 0:0-300000"], messages


def crowd_log(messages):
    """What `explain --from 2001` writes of that batch."""
    told = "\n".join(f"""\
  To train {engine}, for stop 1: stop at once.
    Message 16, unconditional emergency stop, identifier 0, stamp 1; answer: message 147.
    Why: it has no place, so nobody knows that it is not there.
= {message}""" for engine, message in enumerate(messages, 1))
    trains = "\n".join(f"""\
  Train {engine}, 200 m long, has no place.
    Stop identifier 0: stop 1, at once, stamp 1, not answered.""" for engine in range(1, CROWD + 1))
    return f"""\
DISPATCH LOG, rules 3. Places are in km from the beginning of a line; up is towards rising km.
A line after "= " is as `dispatch run` writes it.
Track: 2 lines, 3 balise groups, horizon 10.000 km.
  line 0: km 0.000 to km 30.000, 2 balise groups
  line 1: km 0.000 to km 300.000, 1 balise group

Run before this: inputs 1 to 2000.

INPUT 2001: stop 1 0:0-300000
= 2001 ok 2000
  Accepted; 2000 messages are sent.
  Stop 1 is active on line 0, km 0.000 to km 30.000.
{told}
  Of 2000 trains: 2000 told, 0 not told though concerned, 0 not concerned.

AT THE END, after 2001 inputs: 2001 accepted, 0 refused, 2000 messages sent.
Stops: 1 active; the last number given is 1.
  Stop 1: line 0, km 0.000 to km 30.000.
    Told to 2000 trains, answered by 0.
Restrictions: 0 active; the last number given is 0.
Trains: 2000 enrolled.
{trains}
Outstanding: 2000 acknowledgements from 2000 trains.
"""


def crowd_signs():
    """What the picture of that batch says, as `signs_of` lists it."""
    trains = "\n".join(f"""\
Train {engine} has no place. Stop identifier 0: stop 1, at once, stamp 1, not answered.
  open; {engine}; S1?""" for engine in range(1, CROWD + 1))
    return f"""\
Track after 2001 of 2001 inputs
Track after 2001 of 2001 inputs
2000 trains, 2000 without a place; 1 stop and 0 restrictions active; 2000 acknowledgements outstanding.
stop 1: line 0, km 0.000 to km 30.000
  stop 1
{trains}
"""


class Watched:
    """Trains, each with its line or without a place, and stops with the lines that they close: all that these alarms hang on. Each train holds
    15 stop identifiers before the first stop here is given."""

    def __init__(self):
        self.lines, self.stops, self.inputs, self.alarms = {}, {}, [], []

    def standing(self):
        """The alarms that stand: each with its engine, and in the order of alarms."""
        untold = [
            (engine, 1, number, f"stop {number}")
            for (engine, line), (number, closed) in product(self.lines.items(), self.stops.items())
            if line is None or line in closed
        ]
        return {*untold, *((engine, 0, 0, "place") for engine, line in self.lines.items() if line is None)}

    def takes(self, text, change=lambda: None):
        """An input, and what it changes. It raises and clears the alarms that only one of the two states has."""
        before = self.standing()
        change()
        self.inputs.append(text)
        after, number = self.standing(), len(self.inputs)
        changed = sorted((alarm, "cleared" if alarm in before else "raised") for alarm in before ^ after)
        self.alarms.append([f"{number} {way} {engine} {name}" for (engine, _, _, name), way in changed])


def watched_crowd():
    """A batch in which 2,000 trains hold 15 stop identifiers each, and more stops come; and the lines of alarms of each input. Of three trains one has no
    place, one is on line 0 and one on line 1 of track A."""
    crowd = Watched()
    for engine in range(1, CROWD + 1):
        crowd.inputs.append(f"enrol {engine} 2000")
        crowd.alarms.append([f"{engine} raised {engine} place"])
        crowd.lines[engine] = None
    for engine in range(1, CROWD + 1):
        if engine % 3:
            crowd.inputs.append(report(engine, 1000, 5 if engine % 3 == 1 else 7, 20))
            crowd.alarms.append([f"{len(crowd.inputs)} cleared {engine} place"])
            crowd.lines[engine] = engine % 3 - 1
    for number in range(1, 16):
        crowd.takes(f"stop {number} 0:0-300000 1:0-3000000")
    crowd.takes("stop 16 1:0-3000000", lambda: crowd.stops.update({16: {1}}))
    crowd.takes("stop 17 0:0-10", lambda: crowd.stops.update({17: set()}))
    for engine in range(3, 60, 3):
        crowd.takes(report(engine, 2000, 5, 20), lambda engine=engine: crowd.lines.update({engine: 0}))
    crowd.takes("stop 18 0:0-300000", lambda: crowd.stops.update({18: {0}}))
    crowd.takes("withdraw 3")
    crowd.takes("release 16", lambda: crowd.stops.pop(16))
    crowd.takes("release 16")
    return crowd.inputs, crowd.alarms


def restricted():
    """A batch in which a report leads to three messages, with 100, 100 and 55 restrictions: no identifier is free for
    the last one of 256. Its last line acknowledges the first message."""
    restrictions = [f"restrict {number} 0:20000-21000 up 40 1" for number in range(1, 257)]
    acknowledged = spelled((146, 8), (14, 10), (1100, 32), (7, 24), (1001, 32))
    return ["enrol 7 2000", *restrictions, report(7, 1000, 5, 20), f"recv {acknowledged}"]


def restricted_identifiers(is_acknowledged):
    """The lines on the identifiers of the train of that batch, before or after the acknowledgement."""
    for number in range(1, 256):
        state = "acknowledged" if is_acknowledged and number <= 100 else "not acknowledged"
        stamp = 1001 + (number - 1) // 100
        yield f"Restriction identifier {number - 1}: restriction {number}, stamp {stamp}, {state}."


def restricted_end(count, is_acknowledged):
    """The end of the log of so many lines of that batch."""
    told = [f"Told to 1 train, acknowledged by {int(is_acknowledged and number <= 100)}." for number in range(1, 256)]
    told.append("Told to 0 trains, acknowledged by 0, NOT told to 1.")
    restrictions = "\n".join(f"""\
  Restriction {number}: line 0, km 2.000 to km 2.100, facing up, 40 km/h.
    {line}""" for number, line in enumerate(told, 1))
    identifiers = "\n".join(f"    {line}" for line in restricted_identifiers(is_acknowledged))
    return f"""\
AT THE END, after {count} inputs: {count} accepted, 0 refused, 3 messages sent.
Stops: 0 active; the last number given is 0.
Restrictions: 256 active; the last number given is 256.
{restrictions}
Trains: 1 enrolled.
  Train 7, 200 m long, may be at km 1.000 to km 1.200 of line 0, facing up.
{identifiers}
    NOT TOLD: restriction 256, since none of its 255 identifiers is free.
Outstanding: {2 if is_acknowledged else 3} acknowledgements from 1 train.
NOT TOLD: 1 stop or restriction, as above.
"""


def restricted_signs(count, is_acknowledged):
    """What the picture of so many lines of that batch says, as `signs_of` lists it."""
    told = " ".join(f"R{number}{'' if is_acknowledged else '?'}" for number in range(1, 7)) + " +249"
    identifiers = " ".join(restricted_identifiers(is_acknowledged))
    left = 2 if is_acknowledged else 3
    restrictions = "\n".join(f"""\
restriction {number}: 40 km/h, up: line 0, km 2.000 to km 2.100
  restriction {number}: 40 km/h, up""" for number in range(1, 257))
    return f"""\
Track after {count} of {count} inputs
Track after {count} of {count} inputs
1 train, 0 without a place; 0 stops and 256 restrictions active; {left} acknowledgements outstanding.
red NOT TOLD: 1 stop or restriction, marked below.
Train 7 may be at km 1.000 to km 1.200 of line 0, facing up. {identifiers} NOT TOLD: restriction 256.
  7; red NOT TOLD R256; {told}; arrow
{restrictions}
"""
