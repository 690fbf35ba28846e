"""Whom a player hears, and how much of it strangers may hold."""

from __future__ import annotations

import hmac
import ipaddress
import resource
import socket
from collections.abc import Mapping
from dataclasses import dataclass
from urllib.parse import urlsplit

Network = ipaddress.IPv4Network | ipaddress.IPv6Network
# So many files are left for the processes of each match, and for all else.
FILES_OF_MATCH, OTHER_FILES = 6, 64
LEAST_CONNECTIONS = 8


@dataclass(frozen=True)
class Door:
    """Where a player listens, whom it hears, and how much of it strangers may hold."""

    host: str = "127.0.0.1"
    port: int = 9147
    # The path of the messages that are heard, and the addresses that are; where there is none, all.
    token: str = ""
    senders: tuple[Network, ...] = ()
    # By these names this host is known beside its own.
    names: tuple[str, ...] = ()
    connections: int = 256
    # A message takes no longer to come.
    seconds: float = 10.0

    def is_known(self, name: str) -> bool:
        """Whether a name, with a port or without, is one of this host. A number is: no page of elsewhere comes by it."""
        try:
            host = urlsplit(f"//{name}").hostname or ""
        except ValueError:
            return False
        if host in {"localhost", socket.gethostname().lower(), self.host.lower(), *map(str.lower, self.names)}:
            return True
        try:
            ipaddress.ip_address(host)
        except ValueError:
            return False
        return True

    def is_sender(self, address: str) -> bool:
        """Whether messages are taken from an address."""
        if not self.senders:
            return True
        try:
            found = ipaddress.ip_address(address.partition("%")[0])
        except ValueError:
            return False
        plain = getattr(found, "ipv4_mapped", None) or found
        return any(plain in network for network in self.senders)

    def refused(self, path: str, headers: Mapping[str, str]) -> str:
        """Why a message is not heard; empty where it is."""
        if "Origin" in headers:
            return "no page in a browser is heard"
        if headers.get("Host") and not self.is_known(headers["Host"]):
            return "this host has another name"
        if self.token and not hmac.compare_digest(path.strip("/").encode(), self.token.encode()):
            return "no such path"
        return ""

    def most(self, matches: int) -> int:
        """How many connections are open at once, as far as there are files for them."""
        files, _ = resource.getrlimit(resource.RLIMIT_NOFILE)
        room = files - OTHER_FILES - FILES_OF_MATCH * matches
        return self.connections if files == resource.RLIM_INFINITY else max(LEAST_CONNECTIONS, min(self.connections, room))
