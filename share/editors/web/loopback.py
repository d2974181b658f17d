"""Listens on the loopback for this account alone: every account of the machine reaches a port there."""
import contextlib
import os
import socket
import struct

# Linux says of a connection which account has its other end, where that is on this machine.
SOCK_DIAG, BY_FAMILY, REQUEST, NO_COOKIE = 4, 20, 1, 0xFFFFFFFF
ASKED = struct.Struct("=IHHIIBBBBI")
ENDPOINTS, REST = struct.Struct(">HH16s16s"), struct.Struct("=III")
KIND, ACCOUNT_AT = struct.Struct("=IH"), 80
ANSWER_BYTES, KERNEL_SECONDS = 4_096, 1.0
# How many connections may wait to be accepted, and are looked at in a row.
BACKLOG = 64
ROOT = 0


class OwnSocket(socket.socket):
    """A listening socket that takes on nobody of another account. Root, who reads all files, comes from outside where the
    machine is one within another."""

    def accept(self) -> tuple[socket.socket, object]:
        """The next connection of this account."""
        for _ in range(BACKLOG):
            line, address = super().accept()
            if account_of(line) in (os.getuid(), ROOT, None):
                return line, address
            with line, contextlib.suppress(OSError):
                # With nothing left of it here.
                line.setsockopt(socket.SOL_SOCKET, socket.SO_LINGER, struct.pack("ii", 1, 0))
        # The others have their turn.
        raise BlockingIOError


def account_of(line: socket.socket) -> int | None:
    """The account that has the other end of a connection over IPv4; None where the system doesn't say."""
    try:
        (there, its_port), (here, own_port) = line.getpeername(), line.getsockname()
        body = ENDPOINTS.pack(its_port, own_port, *(socket.inet_aton(host).ljust(16, b"\0") for host in (there, here)))
        body += REST.pack(0, NO_COOKIE, NO_COOKIE)
        with socket.socket(socket.AF_NETLINK, socket.SOCK_RAW, SOCK_DIAG) as system:
            system.settimeout(KERNEL_SECONDS)
            system.send(ASKED.pack(ASKED.size + len(body), BY_FAMILY, REQUEST, 1, 0, socket.AF_INET, socket.IPPROTO_TCP,
                                   0, 0, NO_COOKIE) + body)
            answer = system.recv(ANSWER_BYTES)
        if KIND.unpack_from(answer)[1] != BY_FAMILY:
            return None
        account: int = struct.unpack_from("=I", answer, ACCOUNT_AT)[0]
        return account
    except (AttributeError, OSError, struct.error):
        return None
