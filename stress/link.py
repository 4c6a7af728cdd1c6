"""A TCP link that doesn't block, and that breaks in the middle of what it carries where that is wanted."""
import socket
import struct


class Link:
    """A stream with what waits to be written, in pieces. Of each way so many bytes are carried, and then it breaks."""

    def __init__(self, stream, outward=None, inward=None, hard=False, piece=65_536):
        stream.setblocking(False)
        stream.setsockopt(socket.IPPROTO_TCP, socket.TCP_NODELAY, 1)
        self.stream, self.waiting = stream, b""
        self.outward, self.inward, self.hard, self.piece = outward, inward, hard, piece
        self.is_open, self.was_cut, self.was_reset = True, False, False

    def fileno(self):
        return self.stream.fileno()

    def write(self, data):
        self.waiting += data

    def flush(self):
        """Writes what the other end takes."""
        try:
            while self.waiting and self.is_open:
                self.flush_piece()
        except BlockingIOError:
            pass
        except OSError:
            self.was_reset = True
            self.close()

    def flush_piece(self):
        most = self.piece if self.outward is None else min(self.piece, self.outward)
        sent = self.stream.send(self.waiting[:most])
        self.waiting = self.waiting[sent:]
        if self.outward is not None:
            self.outward -= sent
            if self.outward <= 0:
                self.cut()

    def end_writing(self):
        """The other end sees an end, this one still reads."""
        self.flush()
        if self.is_open:
            self.stream.shutdown(socket.SHUT_WR)

    def read(self):
        """The bytes that came; none where the link is no longer open."""
        try:
            data = self.stream.recv(65536)
        except BlockingIOError:
            return b""
        except OSError:
            data, self.was_reset = b"", True
        if not data:
            self.close()
        elif self.inward is not None:
            data = data[:self.inward]
            self.inward -= len(data)
            if self.inward <= 0:
                self.cut()
        return data

    def cut(self):
        self.was_cut = True
        if self.hard:
            self.stream.setsockopt(socket.SOL_SOCKET, socket.SO_LINGER, struct.pack("ii", 1, 0))
        self.close()

    def close(self):
        self.is_open = False
        self.stream.close()


def listener(address=0):
    """Listens on this TCP port of loopback, or on a free one."""
    it = socket.socket()
    it.setsockopt(socket.SOL_SOCKET, socket.SO_REUSEADDR, 1)
    it.bind(("127.0.0.1", address))
    it.listen(16)
    return it


def free_addresses(count):
    """TCP ports of loopback on which nobody listens."""
    held = [listener() for _ in range(count)]
    return [(it.getsockname()[1], it.close())[0] for it in held]
