"""Sockets behind which the server may be changed for another, while who uses them is quiet."""
import os
import select
import socket
import threading


class Relay:
    """Sockets at which a peer each is let in, whose bytes go to a server's socket, and its answers back. The descriptors that
    come with them go no further, as the server would close them."""

    def __init__(self, ways):
        self.ways = dict(ways)  # by its own path: the server's
        self.listeners = {path: self.listen(path) for path in self.ways}
        self.peers, self.servers = {}, {}
        self.lock = threading.Lock()
        threading.Thread(target=self.run, daemon=True).start()

    @staticmethod
    def listen(path):
        listener = socket.socket(socket.AF_UNIX)
        listener.bind(path)
        listener.listen(1)
        return listener

    @staticmethod
    def connected(path):
        server = socket.socket(socket.AF_UNIX)
        server.connect(path)
        return server

    def run(self):
        while True:
            with self.lock:
                sockets = [*self.listeners.values(), *self.peers.values(), *self.servers.values()]
            ready = select.select(sockets, [], [], 0.05)[0]
            with self.lock:
                for path in self.ways:
                    self.serve(path, ready)

    def serve(self, path, ready):
        if self.listeners[path] in ready and path not in self.peers:
            self.peers[path] = self.listeners[path].accept()[0]
            self.servers[path] = self.connected(self.ways[path])
        elif path in self.peers and self.peers[path] in ready:
            data, descriptors, _, _ = socket.recv_fds(self.peers[path], 1 << 16, 16)
            for each in descriptors:
                os.close(each)
            if data:
                self.servers[path].sendall(data)
            else:
                self.peers.pop(path).close()
                self.servers.pop(path).close()
        elif path in self.servers and self.servers[path] in ready:
            self.peers[path].sendall(self.servers[path].recv(1 << 16))

    def change(self, ways):
        """Lets each peer go on at another server's socket."""
        with self.lock:
            self.ways = dict(ways)
            for path in self.servers:
                self.servers[path].close()
                self.servers[path] = self.connected(self.ways[path])
