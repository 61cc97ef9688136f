"""Proxies before a server, which cut connections: at chosen bytes, or all at once."""

import select
import socket
import threading


class Plan:
    """What is done to one connection: it is cut once so many bytes went up to the server or down from it, and
    `at_cut` is called just before."""

    def __init__(self, up=None, down=None, at_cut=None):
        self.left = {"up": up, "down": down}
        self.at_cut = at_cut

    def allows(self, way, count):
        """How many of so many bytes may still go this way, where that is told."""
        left = self.left[way]
        if left is None:
            return count
        self.left[way] = max(left - count, 0)
        return min(left, count)

    def is_over(self):
        return 0 in self.left.values()


class Proxy:
    """Listens at a port of its own and hands each connection on to the server, by the plan that `plan_of` gives."""

    def __init__(self, server_port, plan_of):
        self.server_port, self.plan_of = server_port, plan_of
        self.door = socket.create_server(("127.0.0.1", 0), backlog=64)
        self.port = self.door.getsockname()[1]
        threading.Thread(target=self.serve, daemon=True).start()

    def serve(self):
        while True:
            near, _ = self.door.accept()
            threading.Thread(target=self.hand_on, args=(near, self.plan_of()), daemon=True).start()

    def hand_on(self, near, plan):
        with near:
            try:
                with socket.create_connection(("127.0.0.1", self.server_port)) as far:
                    pass_on(near, far, plan)
            except OSError:
                pass  # whoever is at the other end sees that the connection is gone


def pass_on(near, far, plan):
    """Copies both ways until the plan cuts, or the server has closed."""
    ways = {near: ("up", far), far: ("down", near)}
    while ways:
        ready, _, _ = select.select(list(ways), [], [])
        for source in ready:
            way, target = ways[source]
            piece = source.recv(65536)
            if piece:
                target.sendall(piece[:plan.allows(way, len(piece))])
            if plan.is_over():
                if plan.at_cut:
                    plan.at_cut()
                return
            if not piece:
                if way == "down":
                    return
                del ways[source]
                target.shutdown(socket.SHUT_WR)


class Cut:
    """A proxy in front of the helper's door for its leader, which can cut what goes through it."""

    def __init__(self, port):
        self.target, self.open, self.cuts = port, [], 0
        self.door = socket.create_server(("127.0.0.1", 0), backlog=16)
        threading.Thread(target=self.serve, daemon=True).start()

    def serve(self):
        while True:
            near, _ = self.door.accept()
            try:
                far = socket.create_connection(("127.0.0.1", self.target))
            except OSError:
                near.close()
                continue
            self.open += [near, far]
            for source, target in ((near, far), (far, near)):
                threading.Thread(target=self.hand_on, args=(source, target), daemon=True).start()

    @staticmethod
    def hand_on(source, target):
        try:
            while part := source.recv(1 << 16):
                target.sendall(part)
        except OSError:
            pass  # it was cut
        for end in (source, target):
            try:
                end.shutdown(socket.SHUT_RDWR)
            except OSError:
                pass  # the other direction has done so

    def cut(self):
        open_, self.open = self.open, []
        self.cuts += 1
        for end in open_:
            try:
                end.shutdown(socket.SHUT_RDWR)
            except OSError:
                pass  # it has ended by itself
            end.close()
