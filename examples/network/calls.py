"""A call of a mobile: call control (3GPP TS 24.008, 5.2 and 5.4) for one call at a time."""

CODES = {
    "ALERTING": 0x01, "CALL PROCEEDING": 0x02, "SETUP": 0x05, "CONNECT": 0x07, "CALL CONFIRMED": 0x08, "CONNECT ACKNOWLEDGE": 0x0F,
    "DISCONNECT": 0x25, "RELEASE COMPLETE": 0x2A, "RELEASE": 0x2D, "STATUS": 0x3D,
}
NAMES = {code: name for name, code in CODES.items()}
# bearer capability: speech, by the full rate codec alone, or by AMR at half rate before full rate
BEARER = {"full": b"\x04\x03\x60\x00\x81", "half": b"\x04\x04\x40\x05\x01\x80"}
NORMAL, BUSY = b"\x02\xe0\x90", b"\x02\xe0\x91"  # causes, with their lengths


def digits(text):
    """Octets of two decimal digits, the first in the low half."""
    text += "f" * (len(text) % 2)
    return bytes(int(text[at + 1] + text[at], 16) for at in range(0, len(text), 2))


class Call:
    """`send` gives a message to the main link. `state` is None, "asked", "proceeding", "alerting", "presented", "ringing", "answered",
    "active", "ending" or "over"."""

    def __init__(self, send, rate):
        self.send, self.bearer, self.state, self.transaction, self.was_active = send, BEARER[rate], None, 3, False

    def _say(self, name, elements=b""):
        self.send(0, bytes([self.transaction, CODES[name]]) + elements)

    def begin(self, number):
        """Calls a telephone number."""
        called = bytes([1 + (len(number) + 1) // 2, 0x81]) + digits(number)
        self.state = "asked"
        self._say("SETUP", self.bearer + b"\x5e" + called)

    def ring(self):
        """A call to this mobile rings when it has a traffic channel."""
        if self.state == "presented":
            self.state = "ringing"
            self._say("ALERTING")

    def answer(self):
        self.state = "answered"
        self._say("CONNECT")

    def hang_up(self):
        self.state = "ending"
        self._say("DISCONNECT", NORMAL)

    def take(self, message):
        """A message of the network, whose transaction identifier has the other flag."""
        name, mine = NAMES.get(message[1] & 0x3F), message[0] ^ 0x80
        if name == "SETUP" and self.state not in (None, "over"):
            return self.send(0, bytes([mine, CODES["RELEASE COMPLETE"], 8]) + BUSY)
        self.transaction = mine
        if name == "SETUP":
            self.state = "presented"
            self._say("CALL CONFIRMED", self.bearer)
        elif name in ("CALL PROCEEDING", "ALERTING"):
            self.state = name.split()[-1].lower()
        elif name == "CONNECT":
            self._say("CONNECT ACKNOWLEDGE")
        elif name == "DISCONNECT":
            self.state = "ending"
            self._say("RELEASE")
        elif name == "RELEASE":
            self._say("RELEASE COMPLETE")
        if name in ("CONNECT", "CONNECT ACKNOWLEDGE"):
            self.state, self.was_active = "active", True
        elif name in ("RELEASE", "RELEASE COMPLETE"):
            self.state = "over"
        return None
