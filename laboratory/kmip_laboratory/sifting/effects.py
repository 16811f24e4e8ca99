"""Which operations have no effect on what is judged, and why; docs/SIFTING.md has this table too."""

from __future__ import annotations

from typing import Optional

from ..operations import Operation

# Nothing that is judged depends on whether such a call was done.
HARMLESS: dict[Operation, str] = {
    Operation.QUERY: "tells what the server can do",
    Operation.DISCOVER_VERSIONS: "tells which versions the server speaks",
    Operation.CHECK: "tells whether a use would be allowed",
    Operation.GET_ATTRIBUTE_LIST: "tells which attributes there are, and no value",
    Operation.OBTAIN_LEASE: "sets a Lease Time, which is not judged",
    Operation.GET_USAGE_ALLOCATION: "sets Usage Limits, which are not judged",
    Operation.VALIDATE: "tells whether certificates are valid",
    Operation.ENCRYPT: "uses a key, and leaves its judged attributes as they are",
    Operation.DECRYPT: "uses a key, and leaves its judged attributes as they are",
    Operation.SIGN: "uses a key, and leaves its judged attributes as they are",
    Operation.SIGNATURE_VERIFY: "uses a key, and leaves its judged attributes as they are",
    Operation.MAC: "uses a key, and leaves its judged attributes as they are",
    Operation.MAC_VERIFY: "uses a key, and leaves its judged attributes as they are",
    Operation.RNG_RETRIEVE: "gives random bytes, and names no object",
    Operation.RNG_SEED: "feeds a generator of random bytes, and names no object",
    Operation.HASH: "computes, and names no object",
    Operation.EXPORT: "tells an object and its attributes",
    Operation.LOG: "writes into the server's log",
    Operation.LOGIN: "gives a ticket for later calls",
    Operation.LOGOUT: "takes a ticket back",
    Operation.DELEGATED_LOGIN: "gives a ticket for later calls",
    Operation.GET_CONSTRAINTS: "tells what the server asks of new objects",
    Operation.QUERY_ASYNCHRONOUS_REQUESTS: "tells which calls are pending",
    Operation.PING: "asks whether the server is there",
}
# Whether there is an effect depends on the server, or on another call; left out only where that is asked for.
DOUBTFUL: dict[Operation, str] = {
    Operation.CANCEL: "a pending call that it cancels may have had an effect, or have it in part",
    Operation.POLL: "tells how a pending call ended, which may have had an effect",
    Operation.PROCESS: "has a pending call done",
    Operation.NOTIFY: "comes from the server, and tells of changes that a recorded call need not have made",
    Operation.PUT: "comes from the server, and brings an object",
    Operation.SET_ENDPOINT_ROLE: "turns client and server round for what follows",
    Operation.ARCHIVE: "an archived object keeps its attributes, but a Locate may leave it out",
    Operation.RECOVER: "takes an object back from the archive, with what that means for a Locate",
    Operation.INTEROP: "marks the tests of a server, which may reset it between them",
}


def named(words: str) -> Optional[Operation]:
    """The doubtful operation of this name, in any case, with blanks or underscores."""
    wanted = words.strip().upper().replace(" ", "_").replace("-", "_")
    return next((operation for operation in DOUBTFUL if operation.name == wanted), None)
