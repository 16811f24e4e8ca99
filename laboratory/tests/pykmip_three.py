"""Three PyKMIP clients as a house has them, all at once: pykmip_three.py FOLDER PORT.

Each shows the certificate of its name. `portal` keeps certificates, `vault` wraps keys, `backup` changes attributes; each
takes keys of its own through their lives besides. The recording in examples/recorded/three_clients is of these.
"""

import os
import subprocess
import sys
import threading

sys.path.insert(0, os.path.join(os.path.dirname(os.path.abspath(__file__)), os.pardir, "pykmip"))

import pykmip_tls  # noqa: E402,F401 (must come before kmip)
from kmip import enums
from kmip.core import attributes, objects as core
from kmip.pie import client as pie
from kmip.pie import objects

ROUNDS = 3
MASKS = [enums.CryptographicUsageMask.ENCRYPT, enums.CryptographicUsageMask.DECRYPT]
WRAPS = [enums.CryptographicUsageMask.WRAP_KEY, enums.CryptographicUsageMask.UNWRAP_KEY]


def connected(folder, port, name):
    """The client with this name, whose connection is open."""
    client = pie.ProxyKmipClient(
        hostname="127.0.0.1", port=port, cert=os.path.join(folder, f"{name}.pem"),
        key=os.path.join(folder, f"{name}.key"), ca=os.path.join(folder, "authority.pem"),
        kmip_version=enums.KMIPVersion.KMIP_2_0)
    client.open()
    return client


def key(name, masks, length=256):
    """A new key, whose bytes are known."""
    return objects.SymmetricKey(enums.CryptographicAlgorithm.AES, length, os.urandom(length // 8), masks=masks,
                                name=name)


def named(text):
    """A name as an attribute."""
    return attributes.Name.create(text, enums.NameType.UNINTERPRETED_TEXT_STRING)


def live(client, name, length):
    """Takes a key through its life."""
    made = client.register(key(name, MASKS, length))
    client.get(made)
    client.activate(made)
    client.get_attributes(made, ["State", "Cryptographic Length"])
    client.get(made)
    client.revoke(enums.RevocationReasonCode.CESSATION_OF_OPERATION, made)
    client.get_attributes(made, ["State"])
    client.destroy(made)


def keep_certificates(client, folder, turn):
    """Registers a certificate, reads it, and looks for what there is."""
    der = subprocess.run(["openssl", "x509", "-in", os.path.join(folder, "portal.pem"), "-outform", "DER"],
                         capture_output=True, check=True).stdout
    made = client.register(objects.X509Certificate(der, name=f"certificate {turn}"))
    client.get(made)
    client.get_attributes(made, ["Name", "State"])
    live(client, f"session key {turn}", 128)
    client.destroy(made)


def wrap_keys(client, _, turn):
    """Has keys wrapped by a key of its own."""
    wrapping = client.register(key(f"wrapping key {turn}", WRAPS))
    client.activate(wrapping)
    inner = client.register(key(f"data key {turn}", MASKS))
    client.activate(inner)
    client.get(inner, key_wrapping_specification={
        "wrapping_method": enums.WrappingMethod.ENCRYPT,
        "encryption_key_information": {"unique_identifier": wrapping, "cryptographic_parameters": {
            "block_cipher_mode": enums.BlockCipherMode.NIST_KEY_WRAP}},
        "encoding_option": enums.EncodingOption.NO_ENCODING})
    client.get(inner)
    if turn == ROUNDS - 1:
        # All that there is: PyKMIP keeps no date of an activation.
        client.get_attributes(inner)
    client.revoke(enums.RevocationReasonCode.CESSATION_OF_OPERATION, inner)
    client.destroy(inner)


def change_attributes(client, _, turn):
    """Marks a key as sensitive, gives it another name, and goes on with it."""
    made = client.register(key(f"backup key {turn}", MASKS, 192))
    client.set_attribute(unique_identifier=made, attribute_name="Sensitive", attribute_value=True)
    client.get_attributes(made, ["State", "Sensitive"])
    client.modify_attribute(unique_identifier=made,
                            current_attribute=core.CurrentAttribute(attribute=named(f"backup key {turn}")),
                            new_attribute=core.NewAttribute(attribute=named(f"kept key {turn}")))
    client.get_attributes(made, ["Name", "State"])
    client.activate(made)
    client.get(made)
    live(client, f"scratch key {turn}", 256)


WORKS = {"portal": keep_certificates, "vault": wrap_keys, "backup": change_attributes}


def work(folder, port, name, start, failed):
    try:
        client = connected(folder, port, name)
        start.wait()
        for turn in range(ROUNDS):
            WORKS[name](client, folder, turn)
        client.close()
    except Exception as error:
        failed.append(f"{name}: {error!r}")
        start.abort()


def main():
    folder, port = sys.argv[1], int(sys.argv[2])
    start, failed = threading.Barrier(len(WORKS)), []
    workers = [threading.Thread(target=work, args=(folder, port, name, start, failed)) for name in WORKS]
    for worker in workers:
        worker.start()
    for worker in workers:
        worker.join()
    sys.exit("\n".join(failed) or 0)


if __name__ == "__main__":
    main()
