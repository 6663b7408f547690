"""What the scripts share that read a published tree: how it is published, and a plain web server of the repository's files.

The server is Python's own http.server, on a free port of the loopback: it knows nothing of cvkit.
"""
import contextlib
import http.server
import os
import threading

from cvkit_client import REPOSITORY, Session, commit, expect, lease, payload
from cvkit_files import whole_head
from cvkit_release import offer


def publish(program, folder, nodes):
    """Publishes a tree on the whole repository. It gives the time of the root's own directory."""
    head = whole_head(folder)
    root, objects = offer(nodes, head.time)
    with Session(program, folder) as session:
        answer = session.exchange(lease("")).json()
        expect(answer["status"] == "ok", "a lease", answer)
        token = answer["session_token"]
        for asked in payload(token, objects), commit(token, head.root, root):
            answer = session.exchange(asked).json()
            expect(answer["status"] == "ok", "an answer of the gateway", answer)
        session.close()
    expect(whole_head(folder).root == root, "the head", whole_head(folder))
    return head.time


@contextlib.contextmanager
def web_server(folder):
    """Serves the files of the repository in a folder. It gives its port, and the list of the paths that it was asked for."""
    front, asked = f"/cvmfs/{REPOSITORY}/", []

    class Files(http.server.SimpleHTTPRequestHandler):
        protocol_version = "HTTP/1.1"

        def translate_path(self, path):
            asked.append(path)
            return os.path.join(folder, "srv", path[len(front) :] if path.startswith(front) else "nothing")

        def log_message(self, *_):
            pass

    with http.server.ThreadingHTTPServer(("127.0.0.1", 0), Files) as server:
        threading.Thread(target=server.serve_forever, daemon=True).start()
        try:
            yield server.server_address[1], asked
        finally:
            server.shutdown()
