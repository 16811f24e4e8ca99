"""The standard's operations, and which of them are judged."""

from __future__ import annotations

from enum import IntEnum
from functools import lru_cache


class Operation(IntEnum):
    """All operations up to version 2.1, by the standard's names."""

    CREATE = 0x01
    CREATE_KEY_PAIR = 0x02
    REGISTER = 0x03
    RE_KEY = 0x04
    DERIVE_KEY = 0x05
    CERTIFY = 0x06
    RE_CERTIFY = 0x07
    LOCATE = 0x08
    CHECK = 0x09
    GET = 0x0A
    GET_ATTRIBUTES = 0x0B
    GET_ATTRIBUTE_LIST = 0x0C
    ADD_ATTRIBUTE = 0x0D
    MODIFY_ATTRIBUTE = 0x0E
    DELETE_ATTRIBUTE = 0x0F
    OBTAIN_LEASE = 0x10
    GET_USAGE_ALLOCATION = 0x11
    ACTIVATE = 0x12
    REVOKE = 0x13
    DESTROY = 0x14
    ARCHIVE = 0x15
    RECOVER = 0x16
    VALIDATE = 0x17
    QUERY = 0x18
    CANCEL = 0x19
    POLL = 0x1A
    NOTIFY = 0x1B
    PUT = 0x1C
    RE_KEY_KEY_PAIR = 0x1D
    DISCOVER_VERSIONS = 0x1E
    ENCRYPT = 0x1F
    DECRYPT = 0x20
    SIGN = 0x21
    SIGNATURE_VERIFY = 0x22
    MAC = 0x23
    MAC_VERIFY = 0x24
    RNG_RETRIEVE = 0x25
    RNG_SEED = 0x26
    HASH = 0x27
    CREATE_SPLIT_KEY = 0x28
    JOIN_SPLIT_KEY = 0x29
    IMPORT = 0x2A
    EXPORT = 0x2B
    LOG = 0x2C
    LOGIN = 0x2D
    LOGOUT = 0x2E
    DELEGATED_LOGIN = 0x2F
    ADJUST_ATTRIBUTE = 0x30
    SET_ATTRIBUTE = 0x31
    SET_ENDPOINT_ROLE = 0x32
    PKCS_11 = 0x33
    INTEROP = 0x34
    RE_PROVISION = 0x35
    SET_DEFAULTS = 0x36
    SET_CONSTRAINTS = 0x37
    GET_CONSTRAINTS = 0x38
    QUERY_ASYNCHRONOUS_REQUESTS = 0x39
    PROCESS = 0x3A
    PING = 0x3B


JUDGED = frozenset({Operation.CREATE, Operation.REGISTER, Operation.LOCATE, Operation.GET, Operation.GET_ATTRIBUTES,
                    Operation.ACTIVATE, Operation.REVOKE, Operation.DESTROY})
READ_OVER = frozenset({Operation.QUERY, Operation.DISCOVER_VERSIONS})

SPECIAL_NAMES = {Operation.RE_KEY: "Re-key", Operation.RE_CERTIFY: "Re-certify", Operation.MAC: "MAC",
                 Operation.RE_KEY_KEY_PAIR: "Re-key Key Pair", Operation.MAC_VERIFY: "MAC Verify",
                 Operation.RNG_RETRIEVE: "RNG Retrieve", Operation.RNG_SEED: "RNG Seed",
                 Operation.PKCS_11: "PKCS#11", Operation.RE_PROVISION: "Re-Provision"}


@lru_cache(maxsize=256)
def operation_name(number: int) -> str:
    """The name of an operation; of a number that the standard does not name, its digits."""
    try:
        operation = Operation(number)
    except ValueError:
        return f"operation {number:X}"
    return SPECIAL_NAMES.get(operation, operation.name.replace("_", " ").title())
