"""A SOCKS 5 server on loopback that leads onion addresses to ports of this machine, and notes what it is asked."""

import socket
import threading


class Broken(Exception):
    """A client broke the connection, or didn't speak as it must."""


def take(conn, count):
    """So many bytes of a connection, and not one more."""
    found = b""
    while len(found) < count:
        more = conn.recv(count - len(found))
        if not more:
            raise Broken("it ended early")
        found += more
    return found


class SocksServer:
    """Answers as `answers` says, which has a place for the choice, the status and the reply; where one of them is None it
    goes on without a word. `ports` has the port of this machine for each (host, port)."""

    YES = (b"\x05\x02", b"\x01\x00", b"\x05\x00\x00\x01\x00\x00\x00\x00\x00\x00")

    def __init__(self, ports, answers=YES):
        self.ports, self.answers, self.asked, self.early, self.names = ports, answers, [], [], []
        self.door = socket.create_server(("127.0.0.1", 0))
        self.port = self.door.getsockname()[1]
        threading.Thread(target=self.serve, daemon=True).start()

    def serve(self):
        while True:
            try:
                conn, _ = self.door.accept()
            except OSError:
                return
            threading.Thread(target=self.serve_one, args=(conn,), daemon=True).start()

    def answer(self, conn, place):
        """Sends one of the answers, once it is sure that the client waits for it."""
        conn.settimeout(0.02)
        try:
            early = conn.recv(1, socket.MSG_PEEK)
        except socket.timeout:
            early = b""
        conn.settimeout(100)
        if early:
            self.early.append((place, early))
        conn.sendall(self.answers[place])

    def serve_one(self, conn):
        with conn:
            try:
                self.talk(conn)
            except (Broken, OSError):
                pass

    def talk(self, conn):
        conn.settimeout(100)
        if take(conn, 3) != b"\x05\x01\x02":
            raise Broken("it greets otherwise")
        self.answer(conn, 0)
        version, size = take(conn, 2)
        name = take(conn, size)
        password = take(conn, take(conn, 1)[0])
        self.names.append((version, name, password))
        self.answer(conn, 1)
        head = take(conn, 5)
        host = take(conn, head[4])
        port = int.from_bytes(take(conn, 2), "big")
        self.asked.append((head[:4], host.decode("ascii"), port))
        self.answer(conn, 2)
        if self.answers[2][1] == 0:
            self.lead(conn, self.ports[(host.decode("ascii"), port)])

    def lead(self, conn, port):
        """Hands bytes on in both directions until both have ended."""
        with socket.create_connection(("127.0.0.1", port)) as server:
            other = threading.Thread(target=pump, args=(server, conn), daemon=True)
            other.start()
            pump(conn, server)
            other.join()

    def stop(self):
        self.door.close()


def pump(source, sink):
    try:
        while True:
            some = source.recv(65536)
            if not some:
                break
            sink.sendall(some)
        sink.shutdown(socket.SHUT_WR)
    except OSError:
        pass
