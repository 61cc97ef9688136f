"""A pair of servers with journals behind the proxies and tunnels of deploy/, each on a machine of its own: network
namespaces of this one, in which all traffic stays. Clients are in further ones, each with its own address and its ends of
the tunnels. Needs root, and what deploy/try installs where it is missing."""

import os
import shutil
import subprocess
import time

import processes

DEPLOY = os.path.join(processes.TOP, "deploy")
TOOLS = ("ip", "ss", "haproxy", "stunnel4", "openssl")
PORTS = {"helper": 7000, "leader": 7001}   # of the fronts, and of the clients' ends of the tunnels
BEHIND = {"helper": 17000, "leader": 17001}
LINK, LINK_END = 7002, 17002
WRITE_BEHIND_MESSAGE = 2096  # bytes of a write's frame behind its length, without the message
LINK_NET = "10.77.1"


class Failed(Exception):
    """The machines can't be set up."""


def run(*words):
    done = subprocess.run(words, stdout=subprocess.PIPE, stderr=subprocess.STDOUT, text=True, check=False)
    if done.returncode:
        raise Failed(f"{' '.join(words)}: {done.stdout[-400:]}")
    return done.stdout


class Deployed:
    """Both servers, and so many machines outside. Behind `start` the servers listen behind their fronts."""

    def __init__(self, path, room, sizes, outsides):
        missing = [tool for tool in TOOLS if not shutil.which(tool)]
        if os.geteuid() or missing:
            raise Failed(f"it needs root and {', '.join(missing) or 'nothing else'}: deploy/try installs what is missing")
        self.room, self.sizes, self.tag, self.started = room, sizes, f"express-{os.getpid()}", []
        self.outsides, self.ports = [f"outside-{number}" for number in range(outsides)], PORTS
        self.machines = ["helper", "leader", *self.outsides]
        self.servers = {role: self.server(path, role) for role in PORTS}

    def front(self, machine):
        """The words in front of a program that runs on a machine."""
        return ["ip", "netns", "exec", f"{self.tag}-{machine}"]

    def folder(self, machine):
        return os.path.join(self.room, machine)

    def server(self, path, role):
        folder = os.path.join(self.folder(role), "journal")
        os.makedirs(folder)
        server = processes.Server(path, role, BEHIND[role], LINK_END, self.sizes, 1000000, folder)
        server.command = [*self.front(role), *server.command]
        return server

    # -- what stands between the machines

    def net(self, number, role):
        """The first three numbers of the addresses between a server and an outside machine."""
        return f"10.77.{10 + 2 * number + (role == 'leader')}"

    def join(self, net, first, second):
        """Two machines see each other in a network, the first at 1 and the second at 2."""
        ends = [f"{self.tag}-{machine}" for machine in (first, second)]
        run("ip", "link", "add", f"to-{second}", "netns", ends[0], "type", "veth", "peer", "name", f"to-{first}", "netns", ends[1])
        for number, (end, link) in enumerate(zip(ends, (f"to-{second}", f"to-{first}")), 1):
            run("ip", "-n", end, "address", "add", f"{net}.{number}/24", "dev", link)
            run("ip", "-n", end, "link", "set", link, "up")

    def make_nets(self):
        for machine in self.machines:
            run("ip", "netns", "add", f"{self.tag}-{machine}")
            run("ip", "-n", f"{self.tag}-{machine}", "link", "set", "lo", "up")
        self.join(LINK_NET, "helper", "leader")
        for number, outside in enumerate(self.outsides):
            for role in PORTS:
                self.join(self.net(number, role), role, outside)

    def make_keys(self):
        for role in PORTS:
            run(os.path.join(DEPLOY, "keys"), role, self.folder(role))
        for name, owner, other in (("helper-link.crt", "helper", "leader"), ("leader-link.crt", "leader", "helper")):
            shutil.copy(os.path.join(self.folder(owner), name), self.folder(other))

    def place(self, machine, file, folder, changes):
        """A file of deploy/ as a machine has it: with its folder in place of those of the system, and these changes."""
        with open(os.path.join(DEPLOY, file), encoding="utf-8") as source:
            text = source.read()
        for old, new in (("/etc/express", folder), ("/run/haproxy", folder), *changes):
            text = text.replace(old, new)
        path = os.path.join(self.folder(machine), file)
        with open(path, "w", encoding="utf-8") as made:
            made.write(text)
        return path

    # -- what runs on the machines

    def start_program(self, machine, *words):
        with open(os.path.join(self.folder(machine), "log"), "ab") as log:
            self.started.append(subprocess.Popen([*self.front(machine), *words], stdout=log, stderr=log))

    def wait_for_port(self, machine, port):
        for _ in range(1200):
            if run(*self.front(machine), "ss", "-Hltn", f"sport = :{port}"):
                return
            time.sleep(0.05)
        with open(os.path.join(self.folder(machine), "log"), encoding="utf-8") as log:
            raise Failed(f"nothing listens at port {port} of {machine}: {log.read()[-400:]}")

    def start_server(self, role):
        folder = self.folder(role)
        write = f"{WRITE_BEHIND_MESSAGE + self.sizes.width:08x}"
        proxy = self.place(role, f"{role}.haproxy.cfg", folder, [("00000870", write)])
        tunnel = self.place(role, f"{role}.stunnel.conf", folder, [("helper.example", f"{LINK_NET}.1")])
        self.servers[role].start()
        self.start_program(role, "haproxy", "-db", "-f", proxy)
        self.start_program(role, "stunnel4", tunnel)

    def start_outside(self, number, outside):
        folder = self.folder(outside)
        os.makedirs(folder)
        for role in PORTS:
            shutil.copy(os.path.join(self.folder(role), f"{role}-front.crt"), folder)
        places = [(f"{role}.example", f"{self.net(number, role)}.1") for role in PORTS]
        self.start_program(outside, "stunnel4", self.place(outside, "client.stunnel.conf", folder, places))

    def start(self):
        self.make_nets()
        self.make_keys()
        for role in PORTS:
            self.start_server(role)
        for number, outside in enumerate(self.outsides):
            self.start_outside(number, outside)
        self.wait_for_port("helper", LINK)
        self.wait_for_port("leader", LINK_END)
        for machine in self.outsides:
            for port in PORTS.values():
                self.wait_for_port(machine, port)
        for role, port in PORTS.items():
            self.wait_for_port(role, port)

    def stop(self):
        for server in self.servers.values():
            server.stop()
        for process in self.started:
            process.terminate()
        for process in self.started:
            process.wait()
        for machine in self.machines:
            subprocess.run(["ip", "netns", "del", f"{self.tag}-{machine}"], stderr=subprocess.DEVNULL, check=False)


class Plain:
    """Both servers on loopback, with nothing in front of them, for whoever has no namespaces."""

    def __init__(self, path, room, sizes, outsides):
        self.ports = dict(zip(PORTS, processes.lasting_ports(2)))
        self.servers = {}
        self.outsides = ["here"] * outsides
        for role in PORTS:
            folder = os.path.join(room, role)
            os.mkdir(folder)
            self.servers[role] = processes.Server(path, role, self.ports[role], self.ports["helper"], sizes, 1000000, folder)

    def front(self, _machine):
        return []

    def start(self):
        for server in self.servers.values():
            server.start()

    def stop(self):
        for server in self.servers.values():
            server.stop()
