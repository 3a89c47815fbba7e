"""Runs in a network namespace of its own, as its first process: starts the Osmocom programs and the cell in the working directory, and
prints the account as JSON. When it ends, the kernel ends all that it started. Its argument is the options, as JSON (runs.py)."""
import contextlib
import fcntl
import json
import os
import random
import re
import socket
import sqlite3
import struct
import subprocess
import sys
import time
import types

HERE = os.path.dirname(os.path.abspath(__file__))
ROOT = os.path.dirname(os.path.dirname(HERE))
sys.path[:0] = [os.path.join(ROOT, "bindings", "python"), os.path.join(ROOT, "examples", "network"), HERE]
SUBSCRIBERS = 100
CELL, STATION, CLOCK = 1, 2, 3  # realtime priorities: of this process and all others; of base stations; of their clock
COMBINATIONS = {"bcch_ccch_sdcch4": "CCCH+SDCCH4", "sdcch8": "SDCCH8", "tch_f": "TCH/F", "tch_h": "TCH/H"}


def raise_loopback():
    """Sets the flags UP and RUNNING of the interface lo."""
    with socket.socket(socket.AF_INET, socket.SOCK_DGRAM) as any_socket:
        fcntl.ioctl(any_socket, 0x8914, struct.pack("16sH14x", b"lo", 0x41))


def start(name, preload, priority, second=""):
    """Starts a program of Osmocom, with its messages in a file."""
    environment = dict(os.environ, LD_PRELOAD=":".join(filter(None, preload)))
    config = f"{name}{second}.cfg"
    with open(f"{name}{second}.log", "wb") as log:
        return subprocess.Popen([name, "-c", config], stdout=log, stderr=log, env=environment, preexec_fn=lambda: realtime(priority))


def write_configurations(layout):
    """Copies them, with what osmo-bsc calls the combinations of the time slots."""
    for name in os.listdir(os.path.join(HERE, "cfg")):
        with open(os.path.join(HERE, "cfg", name)) as file, open(name, "w") as out:
            text = file.read()
            for tn, each in enumerate(layout.split()):
                text = re.sub(rf"(   timeslot {tn}\n    phys_chan_config) .*", rf"\1 {COMBINATIONS[each]}", text)
            out.write(text)


def await_line(file, text, seconds):
    for _ in range(int(seconds * 5)):
        if text in open(file, errors="replace").read():
            return True
        time.sleep(0.2)
    return False


def create_subscribers():
    subprocess.run(["osmo-hlr-db-tool", "-l", "hlr.db", "create"], check=True, capture_output=True)
    with sqlite3.connect("hlr.db") as database:
        rows = [("00101%010d" % index, str(10000 + index)) for index in range(SUBSCRIBERS)]
        database.executemany("insert into subscriber (imsi, msisdn) values (?, ?)", rows)


def realtime(priority):
    """Gives this process a realtime priority, for the clock's sake, where that is allowed. Returns whether it is."""
    with contextlib.suppress(PermissionError):
        os.sched_setscheduler(0, os.SCHED_FIFO, os.sched_param(priority))
        return True
    return False


def main():
    options = types.SimpleNamespace(**json.loads(sys.argv[1]))
    random.seed(options.seed)
    raise_loopback()
    create_subscribers()
    write_configurations(options.layout)
    # osmo-bsc and osmo-msc have a media gateway each: one takes a number of the other's transactions for a repeat of its last one
    for name, second in (("osmo-stp", ""), ("osmo-hlr", ""), ("osmo-mgw", ""), ("osmo-mgw", "-2"), ("osmo-msc", ""), ("osmo-bsc", "")):
        start(name, [options.sctp], CELL, second)
        time.sleep(0.3)
    if not await_line("osmo-bsc.log", "BSSMAP assocation is up", 30):  # the controller's own spelling
        sys.exit("osmo-bsc and osmo-msc did not connect")
    from cell import Cell

    cell = Cell(options)
    is_realtime = realtime(CELL)  # not before: the noise takes a second to make
    preload = [options.preload if options.station else "", options.sctp]
    cell.tell_time(lambda: realtime(CLOCK))
    cell.station = start("osmo-bts-trx", preload, STATION)
    if options.cells > 1:
        start("osmo-bts-trx", preload, STATION, "-2")
    print(json.dumps(dict(cell.run(), realtime=is_realtime)))


main()
