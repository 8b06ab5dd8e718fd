"""Where the program is, and a client of its server: what the scripts beside this file share."""
import os
import socket
import time

TOP = os.path.dirname(os.path.dirname(os.path.abspath(__file__)))
PROGRAM = os.environ.get("DESK_PROGRAM", f"{TOP}/crates/desk/out/desk")


def free_port():
    with socket.socket() as it:
        it.bind(("127.0.0.1", 0))
        return it.getsockname()[1]


def request(method, target, user="ann", label="", body=""):
    """The bytes of a request."""
    head = f"{method} {target} HTTP/1.1\r\nDesk-User: {user}\r\n"
    if label:
        head += f"Desk-Request: {label}\r\n"
    return f"{head}Content-Length: {len(body)}\r\n\r\n{body}".encode()


def ask(port, sent, child, seconds=20):
    """The whole reply, as soon as the port is open, or what broke its connection; None where the server ended before."""
    until = time.monotonic() + seconds
    while time.monotonic() < until and child.poll() is None:
        try:
            with socket.create_connection(("127.0.0.1", port), timeout=seconds) as link:
                link.sendall(sent)
                got = b""
                while piece := link.recv(65536):
                    got += piece
                return got
        except ConnectionRefusedError:
            time.sleep(0.002)
        except OSError as error:
            return f"({error})".encode()
    return None


def status_of(reply):
    """The status of a reply; None where it has none."""
    words = (reply or b"").split(b" ", 2)
    return int(words[1]) if len(words) > 1 and words[0] == b"HTTP/1.1" and words[1].isdigit() else None
