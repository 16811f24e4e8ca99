"""What tshark reads from a capture and a TLS key log: who sent which bytes, packet by packet."""

from __future__ import annotations

import os
import shutil
import socket
import subprocess
from typing import Iterator, NamedTuple, Optional

from ..address import Address
from ..trouble import Trouble
from .gaps import Span

APPLICATION_DATA = "23"
FINISH = 0x01
SYNCHRONIZE = 0x02
RESET = 0x04
FIELDS = ["tcp.stream", "ip.src", "ipv6.src", "tcp.srcport", "ip.dst", "ipv6.dst", "tcp.dstport",
          "tcp.seq", "tcp.len", "tcp.ack", "tcp.flags",
          "tls.record.content_type", "tls.record.opaque_type", "tls.handshake.certificate", "data.data"]


class Packet(NamedTuple):
    """A packet between a client and the server. `sent` is what it completed under TLS; `hidden` says that it had
    something that could not be read."""

    stream: int
    client: Address
    by_client: bool
    sent: bytes
    certificate: Optional[bytes]
    hidden: bool
    span: Optional[Span]


def read_packets(capture: str, keylog: str, server: Address) -> list[Packet]:
    """The packets of a capture that went to the server or came from it, in their order."""
    for path in (capture, keylog):
        if not os.access(path, os.R_OK):
            raise Trouble(f"{path} can't be read: look at its name, and whose file it is")
    hosts = _numbers_of(server)
    packets = [packet for line in _lines(capture, keylog, server) for packet in _packets_of(line, server, hosts)]
    if not packets:
        raise Trouble(f"{capture} has no packet to or from {server}: give --server the address that stands in the "
                      "packets")
    return packets


def _numbers_of(server: Address) -> set[str]:
    try:
        return {str(found[4][0]) for found in socket.getaddrinfo(server.host, server.port, type=socket.SOCK_STREAM)}
    except OSError as error:
        raise Trouble(f"{server.host} has no address: {error.strerror}; give --server the address that stands in "
                      "the packets") from None


def _lines(capture: str, keylog: str, server: Address) -> list[str]:
    """A line for each packet of the server's port, its fields between tabs."""
    program = shutil.which("tshark")
    if program is None:
        raise Trouble("tshark is not there, which reads captures: install it (`apt-get install tshark` on Debian)")
    words = [program, "-n", "-r", capture, "-Y", f"tcp.port == {server.port}", "-o", f"tls.keylog_file:{keylog}",
             "-o", "tcp.reassemble_out_of_order:TRUE", "-d", f"tcp.port=={server.port},tls",
             "-d", f"tls.port=={server.port},data", "-T", "fields", "-E", "separator=/t", "-E", "occurrence=a",
             "-E", "aggregator=,"]
    for field in FIELDS:
        words += ["-e", field]
    done = subprocess.run(words, capture_output=True, text=True, check=False)
    if done.returncode != 0:
        said = done.stderr.strip().splitlines() or ["it said nothing"]
        raise Trouble(f"tshark can't read {capture}: {said[-1]}")
    return done.stdout.splitlines()


def _packets_of(line: str, server: Address, hosts: set[str]) -> Iterator[Packet]:
    """The packet of a line, where it is one between a client and the server."""
    field: dict[str, str] = dict(zip(FIELDS, line.split("\t")))
    source = _address(field["ip.src"] or field["ipv6.src"], field["tcp.srcport"])
    target = _address(field["ip.dst"] or field["ipv6.dst"], field["tcp.dstport"])
    by_client = target.port == server.port and target.host in hosts
    if not by_client and not (source.port == server.port and source.host in hosts):
        return
    certificates = field["tls.handshake.certificate"].split(",")
    sent = bytes.fromhex(field["data.data"].replace(",", ""))
    yield Packet(
        stream=int(field["tcp.stream"]), client=source if by_client else target, by_client=by_client, sent=sent,
        certificate=bytes.fromhex(certificates[0].replace(":", "")) or None,
        hidden=_is_hidden(field["tls.record.content_type"], field["tls.record.opaque_type"], sent),
        span=_span(field))


def _span(field: dict[str, str]) -> Optional[Span]:
    """The numbers of the packet's bytes, of which the begin and the end of a connection each take one; a packet that
    resets the connection has none that are to be trusted."""
    flags = int(field["tcp.flags"], 0)
    if flags & RESET:
        return None
    first = int(field["tcp.seq"])
    ends = bool(flags & SYNCHRONIZE) + bool(flags & FINISH)
    return Span(first, first + int(field["tcp.len"]) + ends, int(field["tcp.ack"] or 0))


def _is_hidden(types: str, outer_types: str, sent: bytes) -> bool:
    """Whether some record could not be read. Of a record of TLS 1.3 that could be, both types are told, else the
    outer one alone; data of TLS 1.2 that could be read was sent."""
    told = types.split(",") if types else []
    outer = outer_types.split(",") if outer_types else []
    return len(told) < len(outer) or (APPLICATION_DATA in told and not sent)


def _address(host: str, port: str) -> Address:
    return Address(host.split(",")[0], int(port))
