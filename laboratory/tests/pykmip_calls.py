"""Every call of PyKMIP's client, in each version that it speaks, as PyKMIP writes it: pykmip_calls.py FOLDER.

Client and server are PyKMIP's own, without a network between them. Each version has a new server, whose clock stands
still and whose random bytes are zeros, so that the calls say the same in all of them. A line of `FOLDER/calls` is the
version, the call, the side, and the message.
"""

import copy
import io
import os
import sys
import time
import warnings

warnings.simplefilter("ignore")

sys.path.insert(0, os.path.join(os.path.dirname(os.path.abspath(__file__)), os.pardir, "pykmip"))

import pykmip_tls  # noqa: E402,F401 (must come before kmip)
from kmip.core import enums, policy  # noqa: E402
from kmip.core.attributes import Name  # noqa: E402
from kmip.core.factories.attributes import AttributeFactory  # noqa: E402
from kmip.core.messages import contents, messages  # noqa: E402
from kmip.core.utils import BytearrayStream  # noqa: E402
from kmip.pie import client as pie  # noqa: E402
from kmip.pie import objects  # noqa: E402
from kmip.services.kmip_client import KMIPProxy  # noqa: E402
from kmip.services.server import engine  # noqa: E402

STAMP = 1_700_000_000
VERSIONS = [enums.KMIPVersion.KMIP_1_0, enums.KMIPVersion.KMIP_1_1, enums.KMIPVersion.KMIP_1_2,
            enums.KMIPVersion.KMIP_1_3, enums.KMIPVersion.KMIP_1_4, enums.KMIPVersion.KMIP_2_0]
AES = enums.CryptographicAlgorithm.AES
MASKS = [enums.CryptographicUsageMask.ENCRYPT, enums.CryptographicUsageMask.DECRYPT]
NAMES = ["Name", "Object Type", "State", "Cryptographic Algorithm", "Cryptographic Length", "Cryptographic Usage Mask",
         "Initial Date", "Unique Identifier"]
PARAMETERS = {"cryptographic_algorithm": AES, "block_cipher_mode": enums.BlockCipherMode.CBC,
              "padding_method": enums.PaddingMethod.PKCS5}


class Wire:
    """Client and server, and what goes between them."""

    def __init__(self, version, out, database):
        self.version, self.out, self.name = version, out, ""
        self.engine = engine.KmipEngine(copy.deepcopy(policy.policies), database)
        self.client = pie.ProxyKmipClient("nowhere", 0, kmip_version=version)
        self.client._is_open = True
        self.answer = b""
        KMIPProxy._send_message = lambda proxy, request: self.exchange(request)
        KMIPProxy._receive_message = lambda proxy: BytearrayStream(self.answer)

    def exchange(self, request):
        """Has the server answer a request; both are noted as they are written."""
        asked = BytearrayStream()
        request.write(asked, self.version)
        self.note("request", asked.buffer)
        taken = messages.RequestMessage()
        taken.read(BytearrayStream(asked.buffer), self.version)
        try:
            response, _, _ = self.engine.process_request(taken, ("client-1", None))
        except Exception as error:
            reason = getattr(error, "reason", enums.ResultReason.GENERAL_FAILURE)
            response = self.engine.build_error_response(taken.request_header.protocol_version, reason, str(error))
        answered = BytearrayStream()
        response.write(answered, self.version)
        self.note("response", answered.buffer)
        self.answer = answered.buffer

    def note(self, side, message):
        print(self.version.value, self.name, side, bytes(message).hex(), file=self.out)

    def call(self, named, made, /, *words, **more):
        """Makes a call, which may be refused; one that this version doesn't have is made by none."""
        self.name = named
        try:
            return made(*words, **more)
        except Exception as error:
            if os.environ.get("TELL"):
                print(self.version.value, named, repr(error)[:150], file=sys.stderr)
            return None


def new_key(name="first"):
    return objects.SymmetricKey(AES, 128, bytes(range(16)), masks=MASKS, name=name)


def attribute(name, value):
    return AttributeFactory().create_attribute(name, value)


def judged(wire):
    """The judged operations, through the life of keys."""
    client, call, kind = wire.client, wire.call, enums.AttributeType
    call("register", client.register, new_key())
    call("register-secret", client.register, objects.SecretData(
        b"secret", enums.SecretDataType.PASSWORD, masks=[enums.CryptographicUsageMask.DERIVE_KEY]))
    call("register-opaque", client.register, objects.OpaqueObject(b"opaque", enums.OpaqueDataType.NONE))
    call("create", client.create, AES, 256, name="third", cryptographic_usage_mask=MASKS)
    call("create-without-name", client.create, AES, 128)
    call("create-of-no-such-length", client.create, AES, 100)
    group = [attribute(kind.OBJECT_GROUP, "group"), attribute(kind.NAME, Name.create(
        "second", enums.NameType.UNINTERPRETED_TEXT_STRING))]
    for name, filters in {
            "locate": None, "locate-name": group[1:], "locate-group": group,
            "locate-key": [attribute(kind.OBJECT_TYPE, enums.ObjectType.SYMMETRIC_KEY), attribute(
                kind.STATE, enums.State.PRE_ACTIVE), attribute(kind.CRYPTOGRAPHIC_ALGORITHM, AES),
                attribute(kind.CRYPTOGRAPHIC_LENGTH, 128), attribute(kind.CRYPTOGRAPHIC_USAGE_MASK, MASKS)],
            "locate-dates": [attribute(kind.INITIAL_DATE, STAMP - 1), attribute(kind.INITIAL_DATE, STAMP + 1)]}.items():
        call(name, client.locate, attributes=filters)
    call("locate-most", client.locate, maximum_items=1, storage_status_mask=1, offset_items=1)
    call("locate-member", client.locate, object_group_member=enums.ObjectGroupMember.GROUP_MEMBER_DEFAULT)
    call("get-attributes-of-all", client.get_attributes, "5")
    call("get-of-none", client.get)
    call("get-attributes-of-none", client.get_attributes, None, ["State"])
    for identifier in ("1", "2", "4", "99"):
        call(f"get-{identifier}", client.get, identifier)
        call(f"get-attributes-{identifier}", client.get_attributes, identifier, NAMES)
        call(f"get-attributes-state-{identifier}", client.get_attributes, identifier, ["State"])
        call(f"activate-{identifier}", client.activate, identifier)
        call(f"revoke-{identifier}", client.revoke, enums.RevocationReasonCode.KEY_COMPROMISE, identifier,
             "lost", STAMP - 60)
        call(f"destroy-{identifier}", client.destroy, identifier)


def others(wire):
    """Operations that are not judged, and are to keep their place."""
    client, call = wire.client, wire.call
    call("get-attribute-list", client.get_attribute_list, "5")
    call("query", client.proxy.query, query_functions=[enums.QueryFunction.QUERY_OPERATIONS])
    call("discover-versions", client.proxy.discover_versions, protocol_versions=[contents.ProtocolVersion(1, 2)])
    call("check", client.check, "5")
    call("rekey", client.rekey, "5")
    call("register-used", client.register, new_key("used"))
    call("activate-used", client.activate, "6")
    call("encrypt", client.encrypt, b"text", "6", PARAMETERS, bytes(16))
    call("decrypt", client.decrypt, bytes(16), "6", PARAMETERS, bytes(16))
    call("mac", client.mac, b"text", "6", enums.CryptographicAlgorithm.HMAC_SHA256)
    call("sign", client.sign, b"text", "6")
    call("signature-verify", client.signature_verify, b"text", b"signature", "6")
    call("derive-key", client.derive_key, enums.ObjectType.SYMMETRIC_KEY, ["6"], enums.DerivationMethod.HASH, {
        "cryptographic_parameters": {"hashing_algorithm": enums.HashingAlgorithm.SHA_256}},
        cryptographic_algorithm=AES, cryptographic_length=128)
    call("delete-attribute", client.delete_attribute, "6", attribute_name="Name", attribute_index=0)


def main():
    real, os.urandom = os.urandom, lambda length: bytes(length)
    time.time = lambda: float(STAMP)
    folder = sys.argv[1]
    noted = io.StringIO()
    for version in VERSIONS:
        wire = Wire(version, noted, os.path.join(folder, f"{version.name}.sqlite"))
        judged(wire)
        others(wire)
    os.urandom = real
    with open(os.path.join(folder, "calls"), "w") as file:
        file.write(noted.getvalue())


if __name__ == "__main__":
    main()
