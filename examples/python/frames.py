"""Decodes LAPDm frames from blocks of SDCCH and SACCH. On SACCH two layer 1 octets come first: power level and timing advance.

    PYTHONPATH=bindings/python python3 examples/python/frames.py"""
import um

# the first octets of each block; fill octets 2b follow
BLOCKS = (
    (um.SDCCH, "013f250524110333198105f4"),  # a mobile asks for service
    (um.SDCCH, "0173250524110333198105f4"),  # the network's answer
    (um.SDCCH, "03200d063501"),  # ciphering mode command
    (um.SDCCH, "032101"),  # its acknowledgement
    (um.SACCH, "0803030349061d0102030405060708090a0b0c0d0e0f10"),  # system information 5
    (um.SDCCH, "0803030349061d0102030405060708090a0b0c0d0e0f10"),  # the same, read as SDCCH: the address field seems to continue
    (um.SDCCH, "15062100012b"),  # paging on CCCH is not an LAPDm frame, but can look like one
)


def line_of(octets, channel):
    try:
        kind, sapi, cr, pf, ns, nr, more, info = um.read_frame(octets, channel)
    except um.NoFrame as error:
        return f"not a frame ({error.reason})"
    layer1 = f"power level {octets[0] & 31}, timing advance {octets[1]}, " if channel == um.SACCH else ""
    return f"{layer1}{kind} sapi {sapi} cr {cr} pf {pf} ns {ns} nr {nr} more {more} info {info.hex() or '-'}"


for channel, first in BLOCKS:
    octets = bytes.fromhex(first).ljust(23, b"\x2b")
    print(f"{channel.name}: {line_of(octets, channel)}")
