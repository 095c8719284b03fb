"""What tshark makes of messages: names and values, held against those of their terms."""
import os
import re
import struct
import subprocess
import xml.etree.ElementTree as ElementTree

from messages import Atom, Bits, leaves
from repository import Failure

# The dissector of each type of a message; of RRC for each protocol too, since both have types of one name.
DISSECTORS = {
    **dict.fromkeys(("CAM", "DENM", "SPATEM", "MAPEM"), "its"), "NGAP-PDU": "ngap", "S1AP-PDU": "s1ap", "IFPPacket": "t38_udp",
    "RANAP-PDU": "ranap", "RUA-PDU": "rua", "HNBAP-PDU": "hnbap", "X2AP-PDU": "x2ap", "LPP-Message": "lpp",
    "BCCH-BCH-Message": "lte_rrc.bcch_bch", "PCCH-Message": "lte_rrc.pcch", "SystemInformationBlockType1": "lte_rrc.bcch_dl_sch",
    "RRCConnectionSetupComplete": "lte_rrc.ul_dcch", "lte-rrc UL-CCCH-Message": "lte_rrc.ul_ccch",
    "lte-rrc UL-DCCH-Message": "lte_rrc.ul_dcch", "lte-rrc DL-DCCH-Message": "lte_rrc.dl_dcch",
    "lte-rrc BCCH-DL-SCH-Message": "lte_rrc.bcch_dl_sch",
    "nr-rrc UL-CCCH-Message": "nr-rrc.ul.ccch", "RRCSetupComplete": "nr-rrc.ul.dcch",
    "nr-rrc UL-DCCH-Message": "nr-rrc.ul.dcch", "nr-rrc DL-CCCH-Message": "nr-rrc.dl.ccch",
    "nr-rrc DL-DCCH-Message": "nr-rrc.dl.dcch", "nr-rrc BCCH-DL-SCH-Message": "nr-rrc.bcch.dl.sch",
}


def behind(bits):
    """Returns what puts octets behind these bits."""
    def shifted(octets):
        text = bits + "".join(f"{octet:08b}" for octet in octets)
        return bytes(int(text[place : place + 8].ljust(8, "0"), 2) for place in range(0, len(text), 8))

    return shifted


# What stands around a message, where that has no dissector of its own: T.38's packet has a number, the message in an open
# type, and no packet that was sent before; the others are alternatives of an alternative.
AROUND = {
    "IFPPacket": lambda octets: b"\0\1" + bytes([len(octets)]) + octets + b"\0\0",
    "SystemInformationBlockType1": behind("01"), "RRCConnectionSetupComplete": behind("00100"), "RRCSetupComplete": behind("00010"),
}
# What the messages carry is no real message of these.
CARRIED = ("nas-5gs", "nas-eps")
# T.38 of 2002, and not of 1998.
T38 = "t38.use_pre_corrigendum_asn1_specification:FALSE"
# A capture's head: microseconds, version 2.4, packets of any size, of the link type of exported PDUs.
HEAD = struct.pack("<IHHiIII", 0xA1B2C3D4, 2, 4, 0, 0, 1 << 18, 252)
# The tag of a packet's dissector, by its name.
BY_NAME = 12


def dissector_of(message):
    """Returns the dissector of a message, or None."""
    return DISSECTORS.get(message.type) or DISSECTORS.get(f"{message.protocol} {message.type}")


def packet(message):
    """Returns a packet of a capture: what dissects it, and its octets."""
    dissector, octets = dissector_of(message), bytes.fromhex(message.octets)
    octets = AROUND.get(message.type, bytes)(octets)
    name = dissector.encode() + b"\0" * (-len(dissector) % 4)
    body = struct.pack(">HH", BY_NAME, len(name)) + name + struct.pack(">HH", 0, 0) + octets
    return struct.pack("<IIII", 0, 0, len(body), len(body)) + body


def dissections(folder, messages):
    """Returns the tree that tshark makes of each message."""
    capture = f"{folder}/messages.pcap"
    with open(capture, "wb") as it:
        it.write(HEAD + b"".join(map(packet, messages)))
    words = ["tshark", "-r", capture, "-T", "pdml", "-o", T38, *(word for it in CARRIED for word in ("--disable-protocol", it))]
    ran = subprocess.run(words, capture_output=True, encoding="utf-8", errors="replace", check=False)
    if ran.returncode:
        raise Failure(f"tshark: status {ran.returncode}\n{ran.stderr[-2000:]}")
    os.remove(capture)
    found = ElementTree.fromstring(ran.stdout).findall("packet")
    if len(found) != len(messages):
        raise Failure(f"tshark shows {len(found)} packets of {len(messages)}")
    return found


def plain(text):
    """Returns a name in small letters and digits alone, since tshark writes names in several ways."""
    return re.sub(r"[^a-z0-9]", "", text.lower())


class Node:
    """A field of tshark's tree: its names, and what is shown of it."""

    def __init__(self, field):
        shown = re.sub(r"^[.01 ]+ = ", "", field.get("showname") or field.get("show") or "")
        last = (field.get("name") or "").split(".")[-1]
        self.names = {plain(shown.split(":")[0].split(" (")[0]), plain(re.sub(r"_element$", "", last))}
        self.show, self.octets = field.get("show") or "", (field.get("value") or "").lower()
        self.told = shown.split(":", 1)[-1]

    def is_value(self, value):
        """Tells whether this is what is shown of a leaf's value, or of one of several that it may be."""
        if isinstance(value, tuple):
            return any(self.is_value(it) for it in value)
        if isinstance(value, Bits):
            return self.is_binary(value)
        if isinstance(value, Atom):
            is_bit = plain(value) in self.names and self.told.strip() == "True"
            return is_bit or value == "NULL" or plain(self.told.split("(")[0]) == plain(value)
        if isinstance(value, str):
            return self.show == value
        return str(value) in (self.show, *re.findall(r"\((-?\d+)\)", self.told)) or self.show == f"0x{value:08x}"

    def is_binary(self, bits):
        """Tells whether octets or bits are shown: as octets, as digits behind a colon, or as text."""
        octets = bytes(int(bits[place : place + 8].ljust(8, "0"), 2) for place in range(0, len(bits), 8))
        number = octets.hex()
        if number in (self.octets, self.show.replace(":", "").lower()):
            return True
        found = re.match(r"\s*([0-9a-f]+)\b", self.told)
        return bool(found) and found[1] == number or self.show.encode() == octets


def faults(tree):
    """Gives what tshark finds wrong with a message."""
    texts = {(field.get("name"), field.get("showname") or "") for field in tree.iter("field")}
    if any(name == "_ws.expert.severity" and "Error" in text for name, text in texts):
        yield "an error"
    if any(name == "_ws.malformed" for name in [it.get("name") for it in tree.iter()]):
        yield "malformed"
    if any(proto.get("name") == "data" for proto in tree.findall("proto")):
        yield "octets are left over"


def unused(value, name, nodes, used):
    """Returns the place of a node that shows a value, under a name or any, and no other leaf has; None where there is none."""
    for place, node in enumerate(nodes):
        if place not in used and (name is None or plain(name) in node.names) and node.is_value(value):
            return place
    return None


def compared(found, tree):
    """Returns how many leaves there are, how many are shown by value alone, and those that aren't shown. The value of an
    open type, and an item of a list, stand under their types' names. No two leaves have one node; numbers come last, since
    an item is shown with its number too."""
    nodes, used = [Node(field) for proto in tree.findall("proto") for field in proto.iter("field")], set()
    lacking = sorted(found, key=lambda leaf: isinstance(leaf[1], int))
    count = len(lacking)
    for is_named in (True, False):
        rest = []
        for name, held in lacking:
            place = unused(held, name if is_named else None, nodes, used)
            used.add(place)
            rest += [(name, held)] * (place is None)
        by_value, lacking = len(lacking) - len(rest), rest
    return count, by_value, lacking


def judged(folder, messages):
    """Gives of each message how many leaves were compared, how many of them are shown by value alone, and what differs."""
    for message, tree in zip(messages, dissections(folder, messages) if messages else []):
        leaves_here, by_value, lacking = compared(leaves(message.value), tree)
        yield leaves_here, by_value, [*faults(tree), *(f"{name} {value} isn't shown" for name, value in lacking)]
