"""Short messages on SAPI 3: CP messages with RP messages in them (3GPP TS 24.011), and SMS-SUBMIT (TS 23.040)."""
from calls import digits

CP_DATA, CP_ACK, RP_DATA, RP_ACK = 1, 4, 1, 3
SERVICE_CENTRE = b"\x02\x91\x44"
MINE = 0x09  # the transaction that the mobile begins


def submit(number, text):
    """The CP-DATA that sends a text of 1 to 140 octets to a telephone number."""
    message = b"\x01\x00" + bytes([len(number), 0x81]) + digits(number) + bytes([0, 4, len(text)]) + text
    data = b"\x00\x07\x00" + SERVICE_CENTRE + bytes([len(message)]) + message
    return bytes([MINE, CP_DATA, len(data)]) + data


def answer(message):
    """What a CP message brings, "text" or "accepted", or None; and the messages that answer it."""
    if message[1] != CP_DATA:
        return None, []
    transaction = bytes([message[0] ^ 0x80])
    acknowledgement = transaction + bytes([CP_ACK])
    if message[3] == RP_DATA:
        return "text", [acknowledgement, transaction + bytes([CP_DATA, 2, 2, message[4]])]  # RP-ACK
    return "accepted" if message[3] == RP_ACK else None, [acknowledgement]
