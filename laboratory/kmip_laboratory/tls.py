"""TLS toward clients and toward the server, and what its errors mean to a person."""

from __future__ import annotations

import ssl

from .trouble import Trouble

MEANINGS = {
    "CERTIFICATE_VERIFY_FAILED": "its certificate is not signed by the authority that was given ({detail})",
    "PEER_DID_NOT_RETURN_A_CERTIFICATE": "it showed no certificate",
    "TLSV1_ALERT_UNKNOWN_CA": "it does not accept our certificate: its authority signed another",
    "SSLV3_ALERT_BAD_CERTIFICATE": "it does not accept our certificate",
    "SSLV3_ALERT_CERTIFICATE_UNKNOWN": "it does not accept our certificate",
    "SSLV3_ALERT_CERTIFICATE_EXPIRED": "it says that our certificate has expired",
    "SSLV3_ALERT_HANDSHAKE_FAILURE": "it refused the handshake: it wants a certificate, or other ciphers",
    "TLSV13_ALERT_CERTIFICATE_REQUIRED": "it wants a certificate",
    "WRONG_VERSION_NUMBER": "it does not speak TLS",
    "HTTP_REQUEST": "it speaks HTTP and not TLS",
    "NO_SHARED_CIPHER": "it has no cipher in common with us",
    "UNSUPPORTED_PROTOCOL": "it speaks a version of TLS below 1.2",
    "TLSV1_ALERT_PROTOCOL_VERSION": "it speaks a version of TLS below 1.2",
}


def toward_clients(certificate: str, key: str, authority: str) -> ssl.SSLContext:
    """TLS in which we are the server, and every client shows a certificate that the authority signed."""
    return _context(ssl.PROTOCOL_TLS_SERVER, certificate, key, authority)


def toward_server(certificate: str, key: str, authority: str) -> ssl.SSLContext:
    """TLS in which we are the client. That the server's certificate bears its name is not asked: in a laboratory
    it often bears none."""
    return _context(ssl.PROTOCOL_TLS_CLIENT, certificate, key, authority)


def meaning(error: OSError) -> str:
    """What an error of a connection means, as the end of a sentence about the other side."""
    if isinstance(error, ssl.SSLCertVerificationError):
        return MEANINGS["CERTIFICATE_VERIFY_FAILED"].format(detail=error.verify_message)
    if isinstance(error, ssl.SSLEOFError):
        return "it closed the connection"
    if isinstance(error, ssl.SSLError):
        return MEANINGS.get(error.reason or "", str(error))
    return error.strerror or str(error) or "it closed the connection"


def _context(protocol: int, certificate: str, key: str, authority: str) -> ssl.SSLContext:
    context = ssl.SSLContext(protocol)
    context.check_hostname = False
    context.verify_mode = ssl.CERT_REQUIRED
    context.minimum_version = ssl.TLSVersion.TLSv1_2
    # All that OpenSSL takes, since many key servers know no other suites than those of KMIP's profiles.
    context.set_ciphers("DEFAULT")
    _load_certificate(context, certificate, key)
    _load_authority(context, authority)
    return context


def _load_certificate(context: ssl.SSLContext, certificate: str, key: str) -> None:
    try:
        context.load_cert_chain(certificate, key, password=lambda: b"")
    except ssl.SSLError as error:
        if error.reason == "KEY_VALUES_MISMATCH":
            raise Trouble(f"the key in {key} is not that of the certificate in {certificate}: give the pair that "
                          "belongs together") from None
        raise Trouble(f"{certificate} and {key} are no certificate and key in PEM without a passphrase "
                      f"({error.reason or error}); `openssl pkey -in KEY -out NEW` takes a passphrase off") from None
    except OSError as error:
        raise Trouble(f"the certificate {certificate} or the key {key} can't be read: {error.strerror}") from None


def _load_authority(context: ssl.SSLContext, authority: str) -> None:
    try:
        context.load_verify_locations(authority)
    except ssl.SSLError:
        raise Trouble(f"{authority} has no certificate of an authority in PEM") from None
    except OSError as error:
        raise Trouble(f"the authority's certificate {authority} can't be read: {error.strerror}") from None
