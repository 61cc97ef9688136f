"""A door in front of a server's, which keeps what goes through each of its connections, and hands it on."""

import re
import socket
import threading


class Connection:
    """The bytes that went up to the server and down from it."""

    def __init__(self):
        self.up, self.down = bytearray(), bytearray()


class Request:
    """A request over HTTP as it came, its path and body, and the answer's status and body; None where none came."""

    def __init__(self, content, path, body, status, answer):
        self.content, self.path, self.body, self.status, self.answer = content, path, body, status, answer


class Tap:
    """It stands for one server, which may end and come back."""

    def __init__(self, port):
        self.target, self.connections = port, []
        self.door = socket.create_server(("127.0.0.1", 0), backlog=64)
        self.port = self.door.getsockname()[1]
        threading.Thread(target=self.serve, daemon=True).start()

    def serve(self):
        while True:
            near, _ = self.door.accept()
            try:
                far = socket.create_connection(("127.0.0.1", self.target))
            except OSError:
                near.close()
                continue
            kept = Connection()
            self.connections.append(kept)
            for source, target, bytes_ in ((near, far, kept.up), (far, near, kept.down)):
                source.setsockopt(socket.IPPROTO_TCP, socket.TCP_NODELAY, 1)
                threading.Thread(target=self.hand_on, args=(source, target, bytes_), daemon=True).start()

    @staticmethod
    def hand_on(source, target, kept):
        try:
            while part := source.recv(1 << 16):
                kept += part
                target.sendall(part)
        except OSError:
            pass  # one of both ends is gone
        for end in (source, target):
            try:
                end.shutdown(socket.SHUT_RDWR)
            except OSError:
                pass  # the other direction has done so

    def requests(self):
        """All whole requests that came, by connection, whose answers come in the order of its requests."""
        for kept in list(self.connections):
            answers = [(int(head.split()[1]), body) for _, head, body in messages_in(bytes(kept.down))]
            for number, (content, head, body) in enumerate(messages_in(bytes(kept.up))):
                status, answer = answers[number] if number < len(answers) else (None, None)
                yield Request(content, head.split()[1].decode(), body, status, answer)


def messages_in(content):
    """The whole requests or answers of HTTP that stand here one behind the other: each, its head and its body."""
    at = 0
    while (end := content.find(b"\r\n\r\n", at)) >= 0:
        head = content[at:end]
        length = re.search(rb"\r\ncontent-length: *(\d+)", head, re.IGNORECASE)
        behind = end + 4 + (int(length[1]) if length else 0)
        if behind > len(content):
            return
        yield content[at:behind], head, content[end + 4:behind]
        at = behind
