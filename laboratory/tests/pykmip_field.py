"""One PyKMIP client as it comes in the field: pykmip_field.py FOLDER PORT NAME VERSION.

It takes a key through its life, with calls in between that are not judged, and asks for all of its attributes.
"""

import os
import sys

sys.path.insert(0, os.path.join(os.path.dirname(os.path.abspath(__file__)), os.pardir, "pykmip"))

import pykmip_tls  # noqa: E402,F401 (must come before kmip)
from kmip import enums
from kmip.pie import client as pie
from kmip.pie import objects

MATERIAL = bytes(range(160, 192))


def main():
    folder, port, name, version = sys.argv[1:5]
    with pie.ProxyKmipClient(
            hostname="127.0.0.1", port=int(port), cert=os.path.join(folder, f"{name}.pem"),
            key=os.path.join(folder, f"{name}.key"), ca=os.path.join(folder, "authority.pem"),
            kmip_version=enums.KMIPVersion(float(version))) as client:
        masks = [enums.CryptographicUsageMask.ENCRYPT, enums.CryptographicUsageMask.DECRYPT]
        key = client.register(objects.SymmetricKey(enums.CryptographicAlgorithm.AES, 256, MATERIAL, masks=masks,
                                                   name=f"key of {name}"))
        client.proxy.query(query_functions=[enums.QueryFunction.QUERY_OPERATIONS])
        client.activate(key)
        client.encrypt(bytes(16), uid=key, iv_counter_nonce=bytes(16), cryptographic_parameters={
            "cryptographic_algorithm": enums.CryptographicAlgorithm.AES,
            "block_cipher_mode": enums.BlockCipherMode.CBC, "padding_method": enums.PaddingMethod.PKCS5})
        client.get_attribute_list(key)
        client.get(key)
        client.get_attributes(key)
        client.locate()
        client.revoke(enums.RevocationReasonCode.CESSATION_OF_OPERATION, key)
        client.destroy(key)


if __name__ == "__main__":
    main()
