"""Names of the numbers of some enumerations, for people."""

from __future__ import annotations

from .operations import Operation, operation_name
from .tag_names import TAG_NAMES
from .tags import Tag


def _numbered(names: str, first: int = 1) -> dict[int, str]:
    return dict(enumerate(names.split("; "), first))


STATUSES = _numbered("Success; Failed; Pending; Undone", 0)
REASONS = {**_numbered(
    "Item Not Found; Response Too Large; Authentication Not Successful; Invalid Message; Operation Not Supported; "
    "Missing Data; Invalid Field; Feature Not Supported; Operation Canceled By Requester; Cryptographic Failure; "
    "Illegal Operation; Permission Denied; Object Archived; Index Out Of Bounds; Application Namespace Not Supported; "
    "Key Format Type Not Supported; Key Compression Type Not Supported; Encoding Option Error; Key Value Not Present; "
    "Attestation Required; Attestation Failed; Sensitive; Not Extractable; Object Already Exists"),
    0x100: "General Failure"}
OF_TAGS: dict[int, dict[int, str]] = {
    Tag.OPERATION: {operation.value: operation_name(operation) for operation in Operation},
    Tag.RESULT_STATUS: STATUSES,
    Tag.RESULT_REASON: REASONS,
    Tag.ATTRIBUTE_REFERENCE: TAG_NAMES,
    Tag.STATE: _numbered("Pre-Active; Active; Deactivated; Compromised; Destroyed; Destroyed Compromised"),
    Tag.OBJECT_TYPE: _numbered("Certificate; Symmetric Key; Public Key; Private Key; Split Key; Template; Secret Data; "
                               "Opaque Object; PGP Key; Certificate Request"),
    Tag.KEY_FORMAT_TYPE: _numbered("Raw; Opaque"),
    Tag.NAME_TYPE: _numbered("Uninterpreted Text String; URI"),
    Tag.CRYPTOGRAPHIC_ALGORITHM: _numbered("DES; 3DES; AES; RSA; DSA; ECDSA; HMAC-SHA1; HMAC-SHA224; HMAC-SHA256; "
                                           "HMAC-SHA384; HMAC-SHA512"),
    Tag.REVOCATION_REASON_CODE: _numbered("Unspecified; Key Compromise; CA Compromise; Affiliation Changed; "
                                          "Superseded; Cessation of Operation; Privilege Withdrawn"),
    Tag.BATCH_ERROR_CONTINUATION_OPTION: _numbered("Continue; Stop; Undo"),
    Tag.SECRET_DATA_TYPE: _numbered("Password; Seed"),
}


def number_name(tag: int, number: int) -> str:
    """The name of a number in the enumeration that an item with this tag has; nothing where it has none here."""
    return OF_TAGS.get(tag, {}).get(number, "")
