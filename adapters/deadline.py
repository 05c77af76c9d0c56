"""Sockets of which a whole request and its answer have one deadline, however slowly the bytes drip."""
import socket
import ssl
import time

BYTES_A_SECOND = 1000000        # what a server takes in or gives: so much later the deadline is for what was sent and came


class Timed:
    until = 0

    def allow(self, seconds):
        """Begins a request."""
        self.until = time.monotonic() + seconds

    def count(self, size):
        """Has the time that is left for so many bytes more."""
        self.until += size / BYTES_A_SECOND
        left = self.until - time.monotonic()
        if left <= 0:
            raise socket.timeout("no answer in time")
        self.settimeout(left)

    def recv_into(self, *words):
        self.count(0)
        size = super().recv_into(*words)
        self.until += size / BYTES_A_SECOND
        return size

    def sendall(self, data, *words):
        self.count(len(data))
        super().sendall(data, *words)

    def send(self, data, *words):           # of TLS, whose sendall is many of it
        self.count(0)
        return super().send(data, *words)


class Plain(Timed, socket.socket):
    pass


class Tls(Timed, ssl.SSLSocket):
    pass
