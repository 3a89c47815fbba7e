"""What the network says of itself on Abis: RSL between the base station and its controller (3GPP TS 48.058)."""
import collections

# the sizes of information elements of fixed size; the others have a length
SIZES = {0x08: 2, 0x09: 1, 0x0A: 2, 0x13: 3, **dict.fromkeys((0x01, 0x02, 0x03, 0x04, 0x0D, 0x11, 0x14, 0x18, 0x1B, 0x1E), 1)}
CHANNEL, LINK, LAYER1, LAYER3, FULL_BCCH, FULL_ASSIGN = 0x01, 0x02, 0x0A, 0x0B, 0x27, 0x2B
DATA_REQUEST, DATA_INDICATION, ESTABLISH_REQUEST, ESTABLISH_INDICATION, RELEASE_CONFIRM, RELEASE_INDICATION = 1, 2, 4, 6, 8, 9
BCCH_INFORMATION, IMMEDIATE_ASSIGN, SACCH_FILLING, ACTIVATION, DEACTIVATE_SACCH, MEASUREMENT, CHANNEL_RELEASE = (
    0x11, 0x16, 0x1A, 0x21, 0x25, 0x28, 0x2E)
NAMES = {
    1: "DATA REQUEST", 2: "DATA INDICATION", 3: "ERROR INDICATION", 4: "ESTABLISH REQUEST", 5: "ESTABLISH CONFIRM",
    6: "ESTABLISH INDICATION", 7: "RELEASE REQUEST", 8: "RELEASE CONFIRM", 9: "RELEASE INDICATION", 0x21: "CHANNEL ACTIVATION",
    0x22: "CHANNEL ACTIVATION ACK", 0x23: "CHANNEL ACTIVATION NACK", 0x24: "CONNECTION FAILURE", 0x25: "DEACTIVATE SACCH",
    0x27: "HANDOVER DETECT", 0x29: "MODE MODIFY", 0x2A: "MODE MODIFY ACK", 0x2E: "RF CHANNEL RELEASE", 0x33: "RF CHANNEL RELEASE ACK",
}


class Truth:
    """One activation of a channel: the messages of each SAPI both ways, how its links were opened and released, measurement results."""

    def __init__(self):
        self.up, self.down, self.opened, self.results = {0: [], 3: []}, {0: [], 3: []}, {}, []
        self.reopened, self.released, self.active = set(), set(), {"sdcch", "sacch"}
        self.events = set()  # names of what was said of the channel


def elements(message):
    """The information elements of a message, by their identifiers."""
    fields, at = {}, 2
    while at < len(message):
        name, size = message[at], SIZES.get(message[at])
        at += 1
        if size is None:
            octets = 2 if name == LAYER3 else 1
            size, at = int.from_bytes(message[at : at + octets], "big"), at + octets
        fields[name], at = message[at : at + size], at + size
    return fields


class Rsl:
    """All that was said: `truths` by channel number, blocks of BCCH and AGCH, and messages of SACCH."""

    def __init__(self, log):
        self.log, self.truths, self.common, self.filling = log, collections.defaultdict(Truth), set(), set()

    def hear(self, message):
        about, kind, fields = message[0] >> 1, message[1], elements(message)
        layer3 = fields.get(LAYER3)
        channel = fields[CHANNEL][0] if about in (1, 4) else None
        if channel is not None and kind != MEASUREMENT:
            sapi = f" sapi {fields[LINK][0] & 7} {(layer3 or b'').hex()}" if about == 1 else ""
            self.log(f"x{channel:02x}", f"RSL {NAMES.get(kind, hex(kind))}{sapi}".rstrip())
        if about == 1 and (not fields[LINK][0] & 0x40 or fields[LINK][0] & 7):  # of SACCH only SAPI 3, beside a traffic channel
            self._link(self.truths[channel], kind, fields[LINK][0] & 7, layer3)
        elif about == 4:
            self._channel(channel, kind, fields, layer3)
        elif kind == BCCH_INFORMATION and FULL_BCCH in fields:
            self.common.add(fields[FULL_BCCH])
        elif kind == IMMEDIATE_ASSIGN:
            self.common.add(fields[FULL_ASSIGN].ljust(23, b"+"))
        elif kind == SACCH_FILLING and layer3:
            self.filling.add(layer3)

    def _link(self, truth, kind, sapi, layer3):
        if kind in (DATA_REQUEST, DATA_INDICATION):
            (truth.down if kind == DATA_REQUEST else truth.up)[sapi].append(layer3)
        elif kind in (ESTABLISH_REQUEST, ESTABLISH_INDICATION):
            if sapi in truth.released:  # a new link
                truth.up[sapi], truth.down[sapi] = [], []
                truth.released.remove(sapi)
            elif kind == ESTABLISH_INDICATION and sapi in truth.opened:
                truth.reopened.add(sapi)
            truth.opened[sapi] = layer3
        elif kind in (RELEASE_CONFIRM, RELEASE_INDICATION):
            truth.released.add(sapi)

    def _channel(self, channel, kind, fields, layer3):
        if kind == ACTIVATION:
            self.truths[channel] = Truth()
        self.truths[channel].events.add(NAMES.get(kind))
        if kind == ACTIVATION:
            return
        if kind in (DEACTIVATE_SACCH, CHANNEL_RELEASE):
            self.truths[channel].active &= {"sdcch"} if kind == DEACTIVATE_SACCH else set()
        elif kind == MEASUREMENT and layer3:
            self.truths[channel].results.append(fields[LAYER1] + layer3)
