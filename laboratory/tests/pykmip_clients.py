"""PyKMIP clients, as they are, all at once: pykmip_clients.py FOLDER PORT CLIENTS ROUNDS [VERSION].

Client N shows the certificate client-N.pem. Each takes keys of its own through their lives, and all of them meet on
one key that client 0 registered ahead of them; a server that lets only its owner have it refuses that.
"""

import os
import sys
import threading

sys.path.insert(0, os.path.join(os.path.dirname(os.path.abspath(__file__)), os.pardir, "pykmip"))

import pykmip_tls  # noqa: E402,F401 (must come before kmip)
from kmip import enums
from kmip.pie import client as pie
from kmip.pie import objects
from kmip.pie.exceptions import KmipOperationFailure

ATTRIBUTES = ["Name", "Object Type", "Cryptographic Algorithm", "Cryptographic Length", "Cryptographic Usage Mask",
              "State"]
VERSION = enums.KMIPVersion(float(sys.argv[5]) if len(sys.argv) > 5 else 2.0)
MASKS = [enums.CryptographicUsageMask.ENCRYPT, enums.CryptographicUsageMask.DECRYPT]


def connected(folder, port, number):
    """The client with this number, whose connection is open."""
    client = pie.ProxyKmipClient(
        hostname="127.0.0.1", port=port, cert=os.path.join(folder, f"client-{number}.pem"),
        key=os.path.join(folder, f"client-{number}.key"), ca=os.path.join(folder, "authority.pem"),
        kmip_version=VERSION)
    client.open()
    return client


def new_key(name, length):
    """A key that is made here, so that its bytes are known."""
    return objects.SymmetricKey(enums.CryptographicAlgorithm.AES, length, os.urandom(length // 8), masks=MASKS,
                                name=name)


def live(client, number, turn):
    """Takes one key from its registration to its destruction."""
    key = client.register(new_key(f"client-{number} key-{turn}", (128, 192, 256)[turn % 3]))
    client.get(key)
    client.activate(key)
    client.get_attributes(key, ATTRIBUTES)
    client.get(key)
    client.revoke(enums.RevocationReasonCode.CESSATION_OF_OPERATION, key)
    client.get_attributes(key, ["State"])
    client.destroy(key)
    refused(client.get, key)


def refused(call, *words):
    """Makes a call that may fail."""
    try:
        call(*words)
    except KmipOperationFailure:
        pass


def race(client, shared):
    """What all clients do to one key; who comes first is open."""
    refused(client.get_attributes, shared, ["State"])
    refused(client.activate, shared)
    refused(client.get_attributes, shared, ["State"])
    refused(client.get, shared)


def work(folder, port, number, rounds, shared, start, failed):
    try:
        client = connected(folder, port, number)
        start.wait()
        for turn in range(rounds):
            live(client, number, turn)
            race(client, shared)
        client.close()
    except Exception as error:
        failed.append(f"client {number}: {error!r}")


def main():
    folder, port, clients, rounds = sys.argv[1], int(sys.argv[2]), int(sys.argv[3]), int(sys.argv[4])
    first = connected(folder, port, 0)
    shared = first.register(new_key("shared", 256))
    first.close()
    start, failed = threading.Barrier(clients), []
    workers = [threading.Thread(target=work, args=(folder, port, number, rounds, shared, start, failed))
               for number in range(1, clients + 1)]
    for worker in workers:
        worker.start()
    for worker in workers:
        worker.join()
    sys.exit("\n".join(failed) or 0)


if __name__ == "__main__":
    main()
