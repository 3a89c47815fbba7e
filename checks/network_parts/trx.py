"""The transceiver's side of osmo-bts-trx (TRX protocol: clock, control, bursts; UDP), and a proxy between the base station and its
controller that hands each message of RSL to `rsl`."""
import selectors
import socket

LOCAL = "127.0.0.1"
PORT = 5700  # of the clock of the first base station; control and data follow, the second's are 1000 higher, the base station's 100
OML, RSL = 3002, 3003
FROM_SOFT = bytes((127 - octet) & 255 for octet in range(256))  # to 0, a certain 0, to 254, a certain 1


class Transceiver:
    """That of a base station, 0 or 1; `select` serves both."""

    def __init__(self, rsl, number, select):
        self.rsl, self.on, self.over, self.bursts, self.select, self.port = rsl, False, False, {}, select, PORT + 1000 * number
        self.clock, self.control, self.data = (socket.socket(socket.AF_INET, socket.SOCK_DGRAM) for _ in range(3))
        for port, sock in enumerate((self.clock, self.control, self.data), self.port):
            sock.bind((LOCAL, port))
            sock.setblocking(False)
        self._when_readable(self.control, self._controlled)
        self._when_readable(self.data, self._sent)
        for port in (OML, RSL):
            server = socket.create_server((f"127.0.0.{2 + number}", port))
            self._when_readable(server, lambda server=server, port=port: self._connect(server, port))

    def _when_readable(self, sock, act):
        self.select.register(sock, selectors.EVENT_READ, act)

    def tell_time(self, fn):
        self.clock.sendto(b"IND CLOCK %d\0" % fn, (LOCAL, self.port + 100))

    def give(self, tn, fn, soft, tsc):
        """A burst for the base station; without soft bits nothing was received."""
        head = bytes([0x10 | tn]) + fn.to_bytes(4, "big") + bytes([60, 0, 0])  # version 1, timeslot, frame, -60 dBm, no delay
        body = bytes([tsc, 0, 200]) + soft.translate(FROM_SOFT) if soft else b"\x80\0\0"
        self.data.sendto(head + body, (LOCAL, self.port + 102))

    def _controlled(self):
        words = self.control.recv(1000).rstrip(b"\0").decode().split()[1:]
        self.on = words[0] == "POWERON" or (self.on and words[0] != "POWEROFF")
        answer = ["RSP", words[0], "1" if words[0] == "SETFORMAT" else "0", *(["50"] if words[0] == "NOMTXPOWER" else words[1:])]
        self.control.sendto(" ".join(answer).encode() + b"\0", (LOCAL, self.port + 101))

    def _sent(self):
        for _ in range(64):
            try:
                burst = self.data.recv(1000)
            except BlockingIOError:
                return
            self.bursts[burst[0] & 7, int.from_bytes(burst[1:5], "big")] = burst[6:154]

    def _connect(self, server, port):
        station, controller = server.accept()[0], socket.create_connection((LOCAL, port))
        for one, other in ((station, controller), (controller, station)):
            one.setsockopt(socket.IPPROTO_TCP, socket.TCP_NODELAY, 1)
            self._when_readable(one, lambda one=one, other=other, held=bytearray(): self._pass_on(one, other, held))

    def _pass_on(self, one, other, held):
        try:
            octets = one.recv(65536)
            other.sendall(octets)
        except OSError:
            octets = b""
        if not octets:  # the base station or the controller ended
            self.select.unregister(one)
            self.over = True
        held += octets
        while len(held) > 2 and len(held) >= 3 + int.from_bytes(held[:2], "big"):
            size = int.from_bytes(held[:2], "big")
            if held[2] == 0:  # others are OML and IPA
                self.rsl.hear(bytes(held[3 : 3 + size]))
            del held[: 3 + size]
