"""A network of a script's own, in which there is nothing but loopback, and what begins there: each connection, and each
packet that belongs to none. It takes no root, but a system that lets users have namespaces."""

import collections
import ctypes
import os
import select
import socket
import struct
import subprocess
import sys
import threading

OUTER = "EXPRESS_BENCH_OUTER"  # names the network from which the script was started once more
UNSHARE = ("unshare", "--user", "--map-root-user", "--net")
ALL_PROTOCOLS, OUTGOING = 3, 4           # of linux/if_ether.h and linux/if_packet.h
ATTACH_FILTER = 26                       # SO_ATTACH_FILTER
STATISTICS = (263, 6)                    # SOL_PACKET, PACKET_STATISTICS
TCP, FLAGS, FIRST = 6, 0x12, 0x02        # SYN and ACK; of the first packet of a connection SYN alone
SEEN = 128                               # bytes of a packet that are looked at

# Of the packets that are sent those that are no TCP over IPv4, and those that begin a connection: code, jumps where it is so
# and where not, operand (linux/filter.h).
FILTER = (
    (0x20, 0, 0, 0xFFFFF004), (0x15, 0, 10, OUTGOING),        # its direction
    (0x30, 0, 0, 0), (0x54, 0, 0, 0xF0), (0x15, 0, 6, 0x40),  # its version
    (0x30, 0, 0, 9), (0x15, 0, 4, TCP),                       # its protocol
    (0xB1, 0, 0, 0), (0x50, 0, 0, 13), (0x54, 0, 0, FLAGS), (0x15, 0, 1, FIRST),
    (0x06, 0, 0, SEEN), (0x06, 0, 0, 0))

Packet = collections.namedtuple("Packet", "protocol address port")


def network():
    """What names this process's network."""
    return os.readlink("/proc/self/ns/net")


def is_inside():
    """Whether the script runs in a network of its own."""
    return os.environ.get(OUTER, network()) != network()


def enter():
    """Starts the script once more in a network of its own. There it sets up loopback, by which all that is sent goes, wherever
    it is meant for, and gives True; False where the system gives no such network."""
    if is_inside():
        subprocess.run(["ip", "link", "set", "lo", "up"], check=True)
        subprocess.run(["ip", "route", "add", "default", "dev", "lo"], check=True)
        return True
    try:
        if subprocess.run([*UNSHARE, "ip", "link", "set", "lo", "up"], stderr=subprocess.DEVNULL, check=False).returncode:
            return False
    except FileNotFoundError:
        return False
    os.environ[OUTER] = network()
    os.execvp(UNSHARE[0], [*UNSHARE, sys.executable, *sys.argv])


def parsed(content):
    """What begins with these bytes; the protocol is 0 where they are no IPv4."""
    if content[0] >> 4 != 4:
        return Packet(0, "", 0)
    front = 4 * (content[0] & 15)
    port, = struct.unpack_from(">H", content[front : front + 4].ljust(4, b"\0"), 2)
    return Packet(content[9], socket.inet_ntoa(content[16:20]), port)


class Watch:
    """Notes what begins on loopback, in a network of this script's own."""

    def __init__(self):
        self.packets, self.lock = [], threading.Lock()
        self.door = socket.socket(socket.AF_PACKET, socket.SOCK_DGRAM, socket.htons(ALL_PROTOCOLS))
        self.attach()
        self.door.bind(("lo", ALL_PROTOCOLS))
        threading.Thread(target=self.watch, daemon=True).start()

    def attach(self):
        steps = ctypes.create_string_buffer(b"".join(struct.pack("HBBI", *step) for step in FILTER))
        self.door.setsockopt(socket.SOL_SOCKET, ATTACH_FILTER, struct.pack("HL", len(FILTER), ctypes.addressof(steps)))

    def watch(self):
        while True:
            select.select([self.door], [], [])
            self.take()

    def take(self):
        """Notes all that has come."""
        with self.lock:
            try:
                while True:
                    self.packets.append(parsed(self.door.recv(SEEN, socket.MSG_DONTWAIT)))
            except BlockingIOError:
                return

    def missed(self):
        """How many packets weren't noted since there was no room for them."""
        _, dropped = struct.unpack("II", self.door.getsockopt(*STATISTICS, 8))
        return dropped

    def others(self, ports):
        """What begins no connection to one of these ports of this machine."""
        self.take()
        return [packet for packet in self.packets
                if packet.protocol != TCP or packet.address != "127.0.0.1" or packet.port not in ports]
