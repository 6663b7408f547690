"""What the scripts share that publish by the program's own client: a listener in front of one `cvkit stdio`.

The program serves one connection, and leases last as long as its process: so the listener takes connections one after another,
and passes one request of each on to the one process as it comes, without its `Connection` field, by which a session would end.
The reply goes back as it came, and the connection ends.
"""
import contextlib
import socket
import threading

from cvkit_client import REPOSITORIES, Session, Wrong, expect

# The seconds in which an answer has to come, and in which a peer has to send its request.
PATIENCE = 300
# The most bytes that are passed on at once.
PIECE = 1 << 18


def read_head(link):
    """The lines of the head of the request that a connection has, and the bytes that came behind it. None where it has none."""
    held = b""
    while b"\r\n\r\n" not in held:
        data = link.recv(PIECE)
        if not data:
            return None
        held += data
    head, _, behind = held.partition(b"\r\n\r\n")
    return head.split(b"\r\n"), behind


def is_field(line, name):
    return line.lower().startswith(name + b":")


def passed(lines):
    """A head as it is passed on, without its Connection field, and how many bytes its body has."""
    kept = [line for line in lines if not is_field(line, b"connection")]
    size = sum(int(line.split(b":")[1]) for line in lines if is_field(line, b"content-length"))
    return b"\r\n".join(kept) + b"\r\n\r\n", size


def pass_on(link, session, lines, behind):
    """Passes the request of a connection on as it comes."""
    head, size = passed(lines)
    session.send(head + behind)
    left = size - len(behind)
    while left > 0:
        data = link.recv(min(left, PIECE))
        expect(data, "a connection ended inside a body", left)
        session.send(data)
        left -= len(data)


def written(reply):
    """The bytes of a reply that ends its connection."""
    fields = "".join(f"{name}: {value}\r\n" for name, value in reply.fields.items())
    return f"{reply.line}\r\n{fields}Connection: close\r\n\r\n".encode() + reply.body


def answer(link, session, asked):
    """Passes the request of a connection on, and its reply back."""
    link.settimeout(PATIENCE)
    read = read_head(link)
    if read is not None:
        lines, behind = read
        asked.append(lines[0].decode())
        pass_on(link, session, lines, behind)
        link.sendall(written(session.reply(PATIENCE)))


def serve(listener, session, asked, faults):
    while True:
        try:
            link, _ = listener.accept()
        except OSError:
            return
        with link:
            try:
                answer(link, session, asked)
            except (OSError, Wrong) as fault:
                faults.append(fault)


@contextlib.contextmanager
def gateway(program, folder):
    """A gateway of the repository in a folder. It gives its port, and the list of the request lines that came. It must end well."""
    asked, faults = [], []
    with Session(program, folder) as session, socket.create_server(("127.0.0.1", 0)) as listener:
        # The process has to hold the folder before any other command begins in it, since each holds it that can.
        session.exchange(REPOSITORIES)
        thread = threading.Thread(target=serve, args=(listener, session, asked, faults), daemon=True)
        thread.start()
        try:
            yield listener.getsockname()[1], asked
        except Wrong as wrong:
            raise Wrong(f"{wrong}; behind the gateway: {faults!r}") from None
        finally:
            with contextlib.suppress(OSError):
                listener.shutdown(socket.SHUT_RDWR)
            listener.close()
            thread.join(PATIENCE)
        expect(not faults, "the gateway's connections", faults)
        session.close()
