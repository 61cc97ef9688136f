"""A private Tor network on loopback: directory authorities, relays, onion services and clients, each a process of tor.

Two things of the great network aren't so in a small one on one machine, and let circuits fail that nothing is wrong with.
Tor learns how long circuits take, and gives up those that take longer: here it would learn some 70 milliseconds, which any
load exceeds, so it isn't to learn that. And no relay leads a circuit back to where it came from, which a client asks for
wherever it draws its guard as the last relay too: so all relays are drawn equally, and services and clients are started
only when the authorities agree on all of them."""

import os
import re
import secrets
import subprocess
import time

import processes

AUTHORITIES, RELAYS = 3, 8
PATIENCE = 3600  # seconds for something to come true, which only then counts as something that never does
BANDWIDTHS, BANDWIDTH = "bandwidths", 1000
USEFUL = ("Fast", "Guard", "HSDir", "Running", "Stable", f"Bandwidth={BANDWIDTH}")

COMMON = """\
TestingTorNetwork 1
DataDirectory {folder}
Nickname {name}
Log {level} file {folder}/log
__OwningControllerProcess {owner}
ShutdownWaitLength 1
SafeLogging 0
GeoIPFile /dev/null
GeoIPv6File /dev/null
AssumeReachable 1
PathsNeededToBuildCircuits 0.67
LearnCircuitBuildTimeout 0
CircuitBuildTimeout 60
TestingDirAuthVoteExit *
TestingDirAuthVoteHSDir *
TestingDirAuthVoteGuard *
"""

AUTHORITY = """\
AuthoritativeDirectory 1
V3AuthoritativeDirectory 1
ContactInfo nobody@example.invalid
V3AuthNIntervalsValid 2
TestingV3AuthInitialVotingInterval 20
TestingV3AuthInitialVoteDelay 4
TestingV3AuthInitialDistDelay 4
V3AuthVotingInterval 60
V3AuthVoteDelay 4
V3AuthDistDelay 4
TestingMinExitFlagThreshold 0
AuthDirFastGuarantee 1
AuthDirVoteStableGuaranteeMinUptime 0
AuthDirVoteStableGuaranteeMTBF 0
V3BandwidthsFile {bandwidths}
"""

RELAY = """\
Address 127.0.0.1
ORPort 127.0.0.1:{orport}
DirPort 127.0.0.1:{dirport}
SocksPort 0
ExitPolicy reject *:*
"""


class Broken(Exception):
    """The network isn't as it must be."""


class Node:
    """A process of tor with a folder of its own."""

    def __init__(self, folder, name, lines):
        self.folder, self.name, self.lines, self.process = os.path.join(folder, name), name, lines, None
        os.makedirs(self.folder, mode=0o700)

    def path(self, *parts):
        return os.path.join(self.folder, *parts)

    def read(self, *parts):
        """What stands in a file of its folder; None while there is none."""
        try:
            with open(self.path(*parts), encoding="utf-8", errors="replace") as file:
                return file.read()
        except FileNotFoundError:
            return None

    def common(self, level):
        return COMMON.format(folder=self.folder, name=self.name.replace("-", ""), level=level, owner=os.getpid())

    def start(self, directories, level="notice"):
        """Starts it with the lines that name the directory authorities."""
        with open(self.path("torrc"), "w", encoding="ascii") as file:
            file.write(self.common(level) + self.lines + directories)
        self.process = subprocess.Popen(["tor", "-f", self.path("torrc"), "--quiet"])

    def stop(self, how="terminate"):
        if self.process:
            getattr(self.process, how)()
            self.process.wait()
        self.process = None

    def check(self):
        """It hasn't ended by itself."""
        if self.process and self.process.poll() is not None:
            said = (self.read("log") or "nothing").rstrip("\n").split("\n")
            raise Broken(f"the tor of {self.name} ended with status {self.process.returncode}, and last said: {said[-1]}")

    def fingerprint(self):
        """a relay's fingerprint, once tor has made its keys"""
        return (self.read("fingerprint") or "").strip().split(" ")[-1]

    def is_ready(self):
        """a client or a service has what it needs of the network"""
        return "Bootstrapped 100%" in (self.read("log") or "")


class Authority(Node):
    """A directory authority, which is a relay too."""

    def __init__(self, folder, name):
        self.orport, self.dirport = processes.lasting_ports(2)
        own = AUTHORITY.format(bandwidths=os.path.join(folder, BANDWIDTHS))
        super().__init__(folder, name, own + RELAY.format(orport=self.orport, dirport=self.dirport))
        self.identity = self.make_keys()
        self.known_as = self.list_fingerprint()

    def make_keys(self):
        keys = self.path("keys")
        os.mkdir(keys, mode=0o700)
        subprocess.run(
            ["tor-gencert", "--create-identity-key", "--passphrase-fd", "0", "-m", "12", "-a", f"127.0.0.1:{self.dirport}",
             "-i", os.path.join(keys, "authority_identity_key"), "-s", os.path.join(keys, "authority_signing_key"),
             "-c", os.path.join(keys, "authority_certificate")],
            input=secrets.token_hex(8) + "\n", text=True, check=True, capture_output=True)
        return re.search(r"^fingerprint (\w+)$", self.read("keys", "authority_certificate"), re.M).group(1)

    def list_fingerprint(self):
        with open(self.path("torrc.first"), "w", encoding="ascii") as file:
            file.write(self.common("notice") + RELAY.format(orport=self.orport, dirport=self.dirport) + self.line("F" * 40))
        told = subprocess.run(["tor", "-f", self.path("torrc.first"), "--list-fingerprint", "--quiet"],
                              capture_output=True, text=True, check=True).stdout
        return told.split(" ", 1)[1].replace(" ", "").strip()

    def line(self, known_as=None):
        return (f"DirAuthority {self.name} orport={self.orport} no-v2 v3ident={self.identity} "
                f"127.0.0.1:{self.dirport} {known_as or self.known_as}\n")

    def listed(self):
        """How many relays of its last consensus are measured, and of use for each place of a circuit."""
        entries = (self.read("cached-microdesc-consensus") or "").split("\nr ")[1:]
        return sum(all(word in entry.split() for word in USEFUL) for entry in entries)


class Relay(Node):
    """A relay that is no authority."""

    def __init__(self, folder, name):
        orport, dirport = processes.lasting_ports(2)
        super().__init__(folder, name, RELAY.format(orport=orport, dirport=dirport))


class Service(Node):
    """The tor of an operator, by the lines of a file of deploy/: other ports stand for some of those there."""

    def __init__(self, folder, name, lines, ports):
        with open(os.path.join(processes.TOP, "deploy", lines), encoding="utf-8") as file:
            found = file.read().replace("/var/lib/tor", os.path.join(folder, name))
        for port, own in ports.items():
            found = found.replace(f"127.0.0.1:{port}\n", f"127.0.0.1:{own}\n")
        super().__init__(folder, name, found if "SocksPort" in found else found + "SocksPort 0\n")

    def address(self, service):
        """an onion service's address, once tor has made it"""
        return (self.read(service, "hostname") or "").strip()


class Client(Node):
    """The tor of a user. At a second port it tells of onion services why they aren't reached."""

    def __init__(self, folder, name, port):
        self.port, self.telling, = port, processes.lasting_ports(1)[0]
        super().__init__(folder, name, f"SocksPort 127.0.0.1:{port}\nSocksPort 127.0.0.1:{self.telling} ExtendedErrors\n")


class Network:
    """Authorities and relays, and what is added to them."""

    def __init__(self, folder, level="notice"):
        self.folder, self.level = folder, level
        self.authorities = [Authority(folder, f"authority{number}") for number in range(AUTHORITIES)]
        self.directories = "".join(authority.line() for authority in self.authorities)
        self.nodes = self.authorities + [Relay(folder, f"relay{number}") for number in range(RELAYS)]

    def start(self):
        """Gives it back once it is whole."""
        for node in self.nodes:
            self.start_node(node)
        self.measure()
        self.wait_for(self.is_whole)
        return self

    def start_node(self, node):
        node.start(self.directories, self.level)
        return node

    def measure(self):
        """Writes the file by which the authorities take all relays for equally wide."""
        lines = [f"node_id=${self.wait_for(node.fingerprint)} bw={BANDWIDTH}\n" for node in self.nodes]
        with open(os.path.join(self.folder, BANDWIDTHS), "w", encoding="ascii") as file:
            file.writelines([f"{int(time.time())}\n", *lines])

    def is_whole(self):
        """the authorities agree on all relays"""
        return all(authority.listed() == RELAYS for authority in self.authorities)

    def add(self, node):
        self.nodes.append(node)
        return self.start_node(node)

    def wait_for(self, what):
        """Waits until `what` answers something true, and answers that."""
        end = time.monotonic() + PATIENCE
        while time.monotonic() < end:
            found = what()
            if found:
                return found
            for node in self.nodes:
                node.check()
            time.sleep(0.2)
        raise Broken(f"this didn't come true in {PATIENCE} seconds: {what.__doc__ or what}")

    def stop(self):
        for node in reversed(self.nodes):
            node.stop("kill")
