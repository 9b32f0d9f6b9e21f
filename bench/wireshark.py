#!/usr/bin/env python3
"""Compares the dissector for Wireshark with golden messages: bench/wireshark.py [CAPTURE]

It writes all messages of golden/messages, a packet each, into a capture (CAPTURE, or one that is removed again), reads that by tshark with
share/wireshark/ertms.lua, and puts the fields of each message together as `dispatch decode` has them: each is the golden text, or the name of the
step that refuses it. A message without a byte is left out: no packet of a capture is empty. It needs tshark (Debian: apt install tshark). The
last line counts the messages that are right, and the exit status is 1 where one is not.
"""

import os
import shutil
import struct
import subprocess
import sys
import tempfile
import xml.etree.ElementTree as ElementTree
from pathlib import Path

ROOT = Path(__file__).resolve().parent.parent
USER0 = 147  # the link type
# the word of each variable in the text of a message; the others are not in it
WORDS = {
    "t_train": "stamp", "m_ack": "ack", "nid_lrbg": "lrbg", "nid_engine": "engine", "nid_em": "em", "q_scale": "scale",
    "d_ref": "ref", "q_dir": "dir", "d_emergencystop": "stop", "q_emergencystop": "answer", "nid_tsr": "tsr",
    "d_tsr": "start", "l_tsr": "length", "q_front": "front", "v_tsr": "speed", "nid_prvlrbg": "previous",
    "d_lrbg": "distance", "q_dirlrbg": "dir", "q_dlrbg": "side", "l_doubtover": "over", "l_doubtunder": "under",
}


def messages():
    """Each golden message: its digits and its text, or the step that refuses it."""
    for table in sorted((ROOT / "golden/messages").glob("*.tsv")):
        for line in table.read_text().splitlines():
            digits, text = line.split("\t")
            if digits:
                yield digits, text


def capture(rows):
    """The bytes of a capture of these messages."""
    packets = [bytes.fromhex(digits) for digits, _ in rows]
    head = struct.pack("<IHHiIII", 0xA1B2C3D4, 2, 4, 0, 0, 65535, USER0)
    return head + b"".join(struct.pack("<IIII", at, 0, len(packet), len(packet)) + packet for at, packet in enumerate(packets))


def named(field):
    return field.get("name").removeprefix("ertms.")


def text_of(message):
    """The text of a message by its fields, or the step that refuses it."""
    words, packets = [], 0
    for field in message:
        if named(field) == "refused":
            return field.get("show")
        if named(field) == "packet":
            packets += 1
            if words[0] == "24" or packets == 1:
                words += words_of(field)
        elif named(field) == "t_train" and "stamp" in words:
            words += ["acked", field.get("show")]
        else:
            words += words_of([field])
    return " ".join(words)


def words_of(fields):
    for field in fields:
        if named(field) in ("nid_message", "nid_packet"):
            yield field.get("show")
        elif named(field) in WORDS:
            yield WORDS[named(field)]
            yield field.get("show")


def read_by_tshark(file):
    """The text of each message in a capture."""
    words = ["tshark", "-X", f"lua_script:{ROOT}/share/wireshark/ertms.lua", "-r", file, "-T", "pdml"]
    done = subprocess.run(words, capture_output=True, check=True)
    for packet in ElementTree.fromstring(done.stdout).iter("packet"):
        yield next((text_of(proto) for proto in packet.iter("proto") if proto.get("name") == "ertms"), "no ERTMS")


def main():
    if len(sys.argv) > 2 or sys.argv[1:2] in (["-h"], ["--help"]):
        sys.exit(__doc__)
    if not shutil.which("tshark"):
        sys.exit("wireshark: not run: there is no tshark")
    rows = list(messages())
    with tempfile.TemporaryDirectory() as folder:
        file = Path(sys.argv[1] if sys.argv[1:] else os.path.join(folder, "golden.pcap"))
        file.write_bytes(capture(rows))
        texts = list(read_by_tshark(file))
    right = 0
    for (digits, wanted), text in zip(rows, texts):
        right += text == wanted
        if text != wanted:
            print(f"wireshark: {digits}: {text}, and not {wanted}")
    print(f"wireshark: {right} of {len(rows)} messages have the fields that decode has")
    return 0 if right == len(rows) == len(texts) else 1


if __name__ == "__main__":
    sys.exit(main())
