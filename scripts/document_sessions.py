"""How the blocks of the documents are run: in sessions, each in a folder of its own. A block is named by its document and a piece of it."""
from typing import Dict, List, NamedTuple, Tuple

Named = Tuple[str, str]
# An authority, and certificates of a server, a recorder and a client; and a server that holds nothing.
CERTIFICATES = "kmip_drive certificates . && cp authority.pem ca.pem && cp server.pem recorder.pem && cp server.key recorder.key"
SERVER = "kmip_drive simulate --listen 127.0.0.1:5696 --cert server.pem --key server.key --ca authority.pem"
RECORDER = "--listen 127.0.0.1:5697 --server 127.0.0.1:5696 --cert recorder.pem --key recorder.key --client-ca ca.pem"
# A server listens at this port by itself.
LISTENS = {"kmip_drive simulate": "kmip_drive simulate --listen 127.0.0.1:5696"}
WORK = "kmip_drive --server 127.0.0.1:5697 --cert client.pem --key client.key --ca authority.pem --calls 20 --clients 2"
# Recordings of which one alone can't be explained.
MOSTLY_EXPLAINED = ("headers_alone register_then_get query activated_while_read declared_key_shown message_refused destroy_twice "
                    "open_call_answered undone_create_filled locate_maximum_items date_deactivates destroy_deactivates")


class Session(NamedTuple):
    """Blocks that are run one behind the other in one folder, in which these files of the examples are, and these texts of other blocks; what
    is done ahead of them, and which servers go on meanwhile; what is done once a command that begins so has said that it is ready, before it
    is ended; words in place of others; the commands that end with another status than 0; and those that are not run, each with what is done
    in place of it."""

    blocks: List[Named]
    files: Dict[str, str] = {}
    texts: Dict[str, Named] = {}
    ahead: str = ""
    servers: List[str] = []
    behind: Dict[str, str] = {}
    words: Dict[str, str] = {}
    status: Dict[str, int] = {}
    instead: Dict[str, str] = {}
    needs: str = ""


def three(folder: str, *more: str) -> Dict[str, str]:
    """The three files of an example, by their names."""
    return {f"{name}.ttlv": f"{folder}/{name}.ttlv" for name in ("transcript", "declaration", "witness", *more)}


OTHER_BYTE = "register_then_get_other_byte"
DECLARE = "kmip_record declare --empty --out declaration.ttlv"
SESSIONS: List[Session] = [
    Session([("README.md", "three_clients")], status={"kmip_record audit": 1}),
    Session([("README.md", "kmip_record proxy")], ahead=CERTIFICATES, servers=[SERVER], behind={"kmip_record proxy": WORK}),
    Session([("docs/BLINDING.md", "kmip_record blind")], three("recorded/register_get"), ahead="mkdir out"),
    Session([("docs/CALIBRATION.md", "--fault lost-activate")], instead={"kmip_drive calibrate\n": "true"}),
    Session([("docs/DAYS.md", "kmip_audit check monday.ttlv"), ("docs/DAYS.md", "last stamp 2023-11-14"),
             ("docs/DAYS.md", "kmip_audit check tuesday.ttlv")],
            {"monday.ttlv": "segments/monday/transcript.ttlv", "declaration.ttlv": "segments/monday/declaration.ttlv",
             "monday-witness.ttlv": "segments/monday/witness.ttlv", "tuesday.ttlv": "segments/tuesday/transcript.ttlv",
             "tuesday-witness.ttlv": "segments/tuesday/witness.ttlv"}),
    Session([("docs/DAYS.md", "kmip_audit search tuesday.ttlv"), ("docs/DAYS.md", "yes: 3 steps\nleft: ")],
            {"tuesday.ttlv": "segments/tuesday/transcript.ttlv", "tuesday-declaration.ttlv": "segments/tuesday/declaration.ttlv"}),
    Session([("docs/DAYS.md", "--leaves next-declaration.ttlv"), ("docs/DAYS.md", "chain: 2 segments, 6 calls"),
             ("docs/DAYS.md", "chain days --witnesses judged")],
            ahead="cp -r EXAMPLES/chain days && rm days/declaration-0002.ttlv && mkdir judged"),
    Session([("docs/DRIVING.md", "kmip_drive certificates try"), ("docs/DRIVING.md", "kmip_drive audit")],
            words=LISTENS, status={"kmip_drive audit": 1}),
    Session([("docs/EVIDENCE.md", "--heads /mnt/other")], ahead=f"{CERTIFICATES} && mkdir other", servers=[SERVER],
            words={"/mnt/other": "other", " ..": f" {RECORDER} --out transcript.ttlv"}, behind={"kmip_record proxy": WORK}),
    Session([("docs/EVIDENCE.md", "openssl genpkey"), ("docs/EVIDENCE.md", "openssl dgst"), ("docs/EVIDENCE.md", "openssl ts")],
            ahead="echo recording 7b0c segment 1 records 2 moment x head y > heads.txt",
            instead={"openssl dgst -sha256 -sign": "openssl genpkey -algorithm EC -pkeyopt ec_paramgen_curve:P-256 -out custodian.key && "
                                     "openssl pkey -in custodian.key -pubout -out custodian.pem && THIS",
                     "curl": "printf '[tsa]\\ndefault_tsa=of\\n[of]\\nserial=serial\\ndefault_policy=1.2.3\\ndigests=sha256\\n"
                             "signer_digest=sha256\\n' > tsa.conf && echo 01 > serial && openssl req -x509 -newkey ec -pkeyopt "
                             "ec_paramgen_curve:P-256 -nodes -subj /CN=stamps -days 2 -keyout tsa.key -out authority.pem -addext "
                             "extendedKeyUsage=critical,timeStamping && openssl ts -reply -config tsa.conf -queryfile heads.tsq "
                             "-signer authority.pem -inkey tsa.key -out heads.tsr"}),
    Session([("docs/EXPLAINING.md", "why 9 BytesDiffer\nat 2023")], three(OTHER_BYTE), status={"kmip_audit": 1}),
    Session([("docs/EXPLAINING.md", "passed: Re-key 1 items")], three("rekeyed_key_is_set_aside")),
    Session([("docs/EXPLAINING.md", "kind 6 IdentifierForm")], three("documents/identifier_is_an_integer"), status={"kmip_audit": 2}),
    Session([("docs/EXPLAINING.md", "kind 3 LeftOut")], three("call_left_out"), status={"kmip_audit": 2}),
    Session([("docs/EXPLAINING.md", "gave up: 3 steps")], three("deactivated_while_read"), status={"kmip_audit": 4}),
    Session([("docs/INSTALLING.md", "kmip_audit check")]),
    Session([("docs/JSON.md", '"verdict":"no"')], three(OTHER_BYTE), status={"kmip_audit": 1}),
    Session([("docs/JSON.md", '"verdict":"convicted"')], {"transcript.ttlv": "documents/one_finding/transcript.ttlv"},
            status={"kmip_audit": 1}),
    Session([("docs/JUDGING.md", "convicted: 2 findings"), ("docs/JUDGING.md", "--declaration used.ttlv")],
            {"transcript.ttlv": "documents/two_findings/transcript.ttlv"}, status={"kmip_audit": 1}),
    Session([("docs/JUDGING.md", "passed: Re-key 1 items")],
            {name: f"documents/renewed_key/{name}" for name in ("transcript.ttlv", "declaration.ttlv")}),
    Session([("docs/JUDGING.md", "explained with: own")], {"transcript.ttlv": "documents/active_at_birth/transcript.ttlv"},
            status={"kmip_audit": 1}),
    Session([("docs/RECORDING.md", "kmip_record declare --empty --out declaration.ttlv\n0 rows"),
             ("docs/RECORDING.md", "/usr/bin/python3 client.py"), ("docs/RECORDING.md", "^C"),
             ("docs/RECORDING.md", "kmip_record translate said.ttlv transcript.ttlv\n"), ("docs/RECORDING.md", "kmip_record order"),
             ("docs/RECORDING.md", "kmip_record audit said.ttlv"), ("docs/RECORDING.md", "kmip_record list"),
             ("docs/RECORDING.md", "kmip_record sift")],
            texts={"client.py": ("docs/RECORDING.md", "from kmip import enums")}, servers=["docs/RECORDING.md: pykmip-server"],
            needs="pykmip-server"),
    Session([("docs/RECORDING.md", "--out held.ttlv")], servers=["docs/RECORDING.md: pykmip-server"], needs="pykmip-server"),
    Session([("docs/RECORDING.md", "key server 3, site B")], ahead=f"{CERTIFICATES} && {DECLARE}", servers=[SERVER],
            words={" .. ": f" {RECORDER} "}, behind={"kmip_record proxy": WORK}),
    Session([("docs/REPORT.md", "12 recordings")], ahead=f"mkdir recordings && cp -r $(printf 'EXAMPLES/%s ' {MOSTLY_EXPLAINED}) recordings",
            status={"kmip_report": 1}),
    Session([("docs/SHRINKING.md", "kmip_record shrink")], three("recorded/register_get_other_byte")),
    Session([("examples/README.md", "kmip_audit check transcript.ttlv declaration.ttlv witness.ttlv\n")], three("register_then_get")),
    Session([("examples/README.md", "--forced")], three("activated_while_read")),
    Session([("examples/README.md", "found.ttlv")], three("segments/monday")),
    Session([("examples/README.md", "kmip_audit chain")], ahead="cp -r EXAMPLES/chain chain"),
    Session([("kmip_audit.1", "kmip_audit search")]),
    Session([("kmip_drive.1", "kmip_drive certificates")], words=LISTENS, status={"kmip_drive audit": 1}),
    Session([("kmip_record.1", "kmip_record declare")], ahead=CERTIFICATES, servers=[SERVER], behind={"kmip_record proxy": WORK}),
    Session([("kmip_report.1", "audit.html")], ahead="cp -r EXAMPLES/documents/two_findings recordings",
            status={"kmip_report": 1}),
]
BY_THE_PACKAGES = "it needs root and a package: check-package installs one in a fresh root"
BY_THE_KIT = "it takes the kit, and hours: rt ci proves and runs the program"
OF_A_CONTRIBUTOR = "it is what a contributor runs by hand, over a change"
ELSEWHERE = "it takes GNU parallel and other machines"
EXCEPTIONS: Dict[Named, str] = {
    ("README.md", "apt install"): BY_THE_PACKAGES,
    ("README.md", "rt try"): BY_THE_KIT,
    ("README.md", "rt run"): BY_THE_KIT,
    ("README.md", ".ci/run"): "it is the gate itself",
    ("docs/CALIBRATION.md", "--kmip 2.0"): "it takes hours of PyKMIP, and was done by hand",
    ("docs/CONTRIBUTING.md", "rt try"): OF_A_CONTRIBUTOR,
    ("docs/CONTRIBUTING.md", "test_shrink"): OF_A_CONTRIBUTOR,
    ("docs/CONTRIBUTING.md", "some two minutes"): OF_A_CONTRIBUTOR,
    ("docs/DAYS.md", "parallel"): ELSEWHERE,
    ("docs/DRIVING.md", "HOST:PORT"): "it says which words there are",
    ("docs/INSTALLING.md", "apt install"): BY_THE_PACKAGES,
    ("docs/INSTALLING.md", "tar -C"): BY_THE_PACKAGES,
    ("docs/INSTALLING.md", "scripts/package"): "it makes a package of a program that passed: check-package does it",
    ("docs/RECORDING.md", "kmip_record keylog"): "it takes a capture of packets: the laboratory's test_keylog makes one",
    ("docs/REPORT.md", "parallel"): ELSEWHERE,
}
