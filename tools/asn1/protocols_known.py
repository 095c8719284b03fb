"""The protocols of Wireshark's modules that PER encodes: which files are their modules, what these lack to be such, and
in which variant each is sent."""
import glob
import os
import re
import tempfile
from dataclasses import dataclass, field

from notation import needed, read_modules

APER, UPER = "aper", "uper"
# The words of Wireshark's conformance files for them.
OPTIONS = {APER: "ALIGNED", UPER: "UNALIGNED"}


@dataclass
class Protocol:
    name: str
    variant: str            # aper or uper, as its standard names the transfer syntax; Wireshark has the same
    own: str                # patterns of files below asn1/, those that begin with '-' left out
    more: str = ""          # the same of files from which they import
    edits: dict = field(default_factory=dict)   # by a file's name: a pattern, and what is put in its place
    note: str = ""

    def files(self, folder):
        """Gives the paths of files, and whether each is one of its own."""
        for words, is_own in ((self.own, True), (self.more, False)):
            for path in found(words, folder):
                yield path, is_own

    def edited(self, name, text):
        """Returns the text of a file with what it lacks."""
        pattern, words = self.edits.get(name, (r"(?!)", ""))
        return re.sub(pattern, words, text, count=1)

    @property
    def word(self):
        """The name of the folder of its modules."""
        return self.own.split("/")[0]

    def is_of_wireshark(self, folder):
        """Returns whether Wireshark dissects it in this variant, where the options of its conformance file name one."""
        said = set()
        for path in glob.glob(f"{folder}/asn1/{self.word}/*.cnf"):
            with open(path, encoding="utf-8", errors="replace") as file:
                for options in re.findall(r"^#\.OPT$(.*?)^#\.END", file.read(), re.M | re.S):
                    said.update(options.split())
        return said.isdisjoint(OPTIONS.values()) or OPTIONS[self.variant] in said

    def texts(self, folder):
        """Returns the texts of its modules and of those from which they import, and the names of its own. The modules
        are below asn1/ in the folder."""
        with tempfile.TemporaryDirectory() as room:
            paths = {False: [], True: []}
            for path, is_own in self.files(f"{folder}/asn1"):
                with open(path, encoding="utf-8", errors="replace") as file:
                    text = self.edited(os.path.basename(path), file.read())
                paths[is_own].append(f"{room}/{os.path.basename(path)}")
                with open(paths[is_own][-1], "w", encoding="utf-8") as file:
                    file.write(text)
            own = read_modules(paths[True])
            return needed({**read_modules(paths[False]), **own}, own), [*own]


def found(words, folder):
    patterns = words.split()
    left_out = {path for it in patterns if it[0] == "-" for path in glob.glob(f"{folder}/{it[1:]}")}
    return [path for it in patterns if it[0] != "-" for path in sorted(glob.glob(f"{folder}/{it}")) if path not in left_out]


# An import that isn't used, of what isn't there: Wireshark writes it out where it stands.
UNUSED = (r"\bSetupRelease,", "")
HEADER = "ItsPduHeader ::= SEQUENCE { protocolVersion INTEGER (0..255), messageID INTEGER (0..255), stationID StationID }"
IMPORT = "IMPORTS MobilityInformation FROM S1AP-IEs;"
WITHOUT_IMPORT = "; without an import that is used nowhere"
KNOWN = [
    Protocol("NGAP", APER, "ngap/*.asn"),
    Protocol("S1AP", APER, "s1ap/*.asn", "", {"S1AP-SonTransfer-IEs.asn": (r"\bBEGIN\b", f"BEGIN {IMPORT}")},
             "; with an import that it lacks"),
    Protocol("X2AP", APER, "x2ap/*.asn"),
    Protocol("XnAP", APER, "xnap/*.asn"),
    Protocol("F1AP", APER, "f1ap/*.asn"),
    Protocol("E1AP", APER, "e1ap/*.asn"),
    Protocol("E2AP", APER, "e2ap/E2AP*.asn", "", {"E2AP-Containers.asn": (r"PrivateIE-ID,\s*ProtocolExtensionID,", "")},
             "; without two imports that are used nowhere"),
    Protocol("M2AP", APER, "m2ap/*.asn"),
    Protocol("M3AP", APER, "m3ap/*.asn"),
    Protocol("LPPa", APER, "lppa/*.asn"),
    Protocol("NRPPa", APER, "nrppa/*.asn"),
    Protocol("LPP", UPER, "lpp/*.asn"),
    Protocol("LPPe", UPER, "lppe/*.asn", "lpp/LPP-PDU*.asn"),
    Protocol("LTE RRC, NB-IoT", UPER, "lte-rrc/*.asn", "", {"NBIOT-RRC-Definitions.asn": UNUSED}, WITHOUT_IMPORT),
    Protocol("NR RRC, inter-node, PC5", UPER, "nr-rrc/*.asn", "",
             {"NR-InterNodeDefinitions.asn": UNUSED, "PC5-RRC-Definitions.asn": UNUSED}, WITHOUT_IMPORT),
    Protocol("UMTS RRC", UPER, "rrc/*.asn"),
    Protocol("RANAP", APER, "ranap/*.asn"),
    Protocol("RNSAP", APER, "rnsap/*.asn"),
    Protocol("NBAP", APER, "nbap/*.asn"),
    Protocol("HNBAP", APER, "hnbap/*.asn"),
    Protocol("RUA", APER, "rua/*.asn"),
    Protocol("SABP", APER, "sabp/*.asn"),
    Protocol("SBc-AP", APER, "sbc-ap/*.asn"),
    Protocol("LCS-AP", APER, "lcsap/*.asn"),
    Protocol("ITS, module version 1", UPER, "its/*V1.asn its/*v1.asn", "",
             {"ITS-ContainerV1.asn": (r"(?=\n *StationID ::=)", f"\n{HEADER}")}, "; with a definition that it lacks"),
    Protocol("ITS, module version 2", UPER, "its/*.asn -its/*V1.asn -its/*v1.asn -its/ISO_TS_19321.asn", "",
             {"ISO_TS_14906_Application.asn": (r"AttributeIdList\s*FROM EfcDsrcGeneric *\{[^}]*\}", "")}, WITHOUT_IMPORT),
    Protocol("T.38 of 1998", APER, "t38/T38_1998.asn"),
    Protocol("T.38 of 2002", APER, "t38/T38_2002.asn"),
    Protocol("H.225", APER, "h225/*.asn", "h235/*.asn h245/*.asn"),
    Protocol("H.235", APER, "h235/*.asn", "h225/*.asn h245/*.asn"),
    Protocol("H.245", APER, "h245/*.asn"),
    Protocol("T.124", APER, "t124/*.asn"),
    Protocol("T.125", APER, "t125/*.asn"),
    Protocol("RRLP", UPER, "rrlp/*.asn", "gsm_map/*.asn -gsm_map/Ericsson.asn -gsm_map/Nokia.asn"),
    Protocol("ULP", UPER, "ulp/*.asn"),
    Protocol("CPDLC", UPER, "atn-cpdlc/*.asn"),
]
