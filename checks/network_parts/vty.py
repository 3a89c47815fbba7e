"""Commands to osmo-bsc's telnet."""
import socket
import threading

PORT = 4242


def _type(line, told):
    with socket.create_connection(("127.0.0.1", PORT), timeout=3) as connection, connection.makefile("rw", errors="replace") as lines:
        lines.write(f"enable\n{line}\nexit\nexit\n")
        lines.flush()
        told([text.strip() for text in lines if "%" in text or "rror" in text])


def command(line, told):
    """Gives a command, in a thread; `told` is called with the lines of its answer that speak of an error."""
    threading.Thread(target=_type, args=(line, told), daemon=True).start()
