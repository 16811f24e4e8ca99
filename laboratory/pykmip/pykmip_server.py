"""A PyKMIP server, as it is: pykmip_server.py FOLDER PORT. Its certificate is server.pem in the folder.

A handler of its log notes the order in which it took the calls: `served` has a line for each, with the number of the
server's session, and `asked` has the requests of each session as they came.
"""

import logging
import os
import sys

import pykmip_tls  # noqa: F401 (must come before kmip)
from kmip.services.server import KmipServer


class Notes(logging.Handler):
    """Notes what PyKMIP logs of its sessions: requests as they came, and which is taken under the server's lock."""

    def __init__(self, folder):
        super().__init__()
        self.served = open(os.path.join(folder, "served"), "w", buffering=1)
        self.asked = open(os.path.join(folder, "asked"), "w", buffering=1)

    def emit(self, record):
        message = record.getMessage()
        if record.name == "kmip.server.engine" and message.startswith("Received request at time"):
            print(record.threadName, file=self.served)
        if message.startswith("Request encoding: "):
            print(record.threadName, message.split("'")[1], file=self.asked)


def main():
    folder, port = sys.argv[1], int(sys.argv[2])
    logging.getLogger("kmip.server").addHandler(Notes(folder))
    server = KmipServer(
        hostname="127.0.0.1", port=port, certificate_path=os.path.join(folder, "server.pem"),
        key_path=os.path.join(folder, "server.key"), ca_path=os.path.join(folder, "authority.pem"),
        auth_suite="TLS1.2", config_path=None, log_path=os.path.join(folder, "server.log"),
        policy_path=os.path.join(folder, "policies"), enable_tls_client_auth=True, logging_level="DEBUG",
        database_path=os.path.join(folder, "objects.sqlite"))
    with server:
        server.serve()


if __name__ == "__main__":
    main()
