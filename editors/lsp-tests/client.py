"""A client of freest-lsp as small as can be, for editors/try-lsp."""
import json
import os
import selectors
import signal
import subprocess
import sys
import time

EDITORS = os.path.dirname(os.path.dirname(os.path.realpath(__file__)))
sys.path.insert(0, f"{EDITORS}/../python")
from freest_tools.messages import Inbox  # noqa: E402

SERVER = [sys.executable, "-S", f"{EDITORS}/freest-lsp"]
SECONDS = 20  # for an answer; a busy machine takes long to start Python


def bytes_of(**message):
    body = json.dumps({"jsonrpc": "2.0", **message}).encode()
    return b"Content-Length: %d\r\n\r\n%s" % (len(body), body)


def started(**more):
    return subprocess.Popen(SERVER, stdin=subprocess.PIPE, stdout=subprocess.PIPE, stderr=subprocess.DEVNULL, **more)


class Client:
    """A server with one file open, as `uri` names it. `with` ends it."""

    def __init__(self, text="", uri="file:///a.fst", **capabilities):
        self.server, self.uri, self.version, self.number, self.inbox = started(), uri, 1, 0, Inbox()
        self.messages, self.poll = [], selectors.DefaultSelector()
        self.poll.register(self.server.stdout, selectors.EVENT_READ)
        self.capabilities = self.ask(
            "initialize", {"processId": os.getpid(), "capabilities": {"textDocument": capabilities}}
        )["capabilities"]
        self.tell("initialized", {})
        self.tell(
            "textDocument/didOpen", {"textDocument": {"uri": uri, "languageId": "freest", "version": 1, "text": text}}
        )

    def __enter__(self):
        return self

    def __exit__(self, *_):
        self.server.kill()
        self.server.wait()
        self.server.stdin.close()
        self.server.stdout.close()

    def write(self, given):
        self.server.stdin.write(given)
        self.server.stdin.flush()

    def tell(self, method, params):
        self.write(bytes_of(method=method, params=params))

    def wait_for(self, is_meant):
        """Returns the next message that is meant, and drops those before it."""
        end = time.monotonic() + SECONDS
        while time.monotonic() < end:
            while self.messages:
                message = self.messages.pop(0)
                if is_meant(message):
                    return message
            if self.poll.select(max(0, end - time.monotonic())):
                part = os.read(self.server.stdout.fileno(), 1 << 16)
                if not part:
                    break
                self.messages += [json.loads(body) for body in self.inbox.feed(part)]
        raise TimeoutError("the server gives no answer")

    def ask(self, method, params):
        """Returns the result of a request, or its error's text."""
        self.number += 1
        self.write(bytes_of(id=self.number, method=method, params=params))
        answer = self.wait_for(lambda it: it.get("id") == self.number)
        return answer["result"] if "result" in answer else answer["error"]["message"]

    def at(self, method, line, character, **more):
        """Returns the result of a request about a position, both parts counted from 0."""
        place = {"textDocument": {"uri": self.uri}, "position": {"line": line, "character": character}}
        return self.ask(f"textDocument/{method}", {**place, **more})

    def change(self, *changes):
        self.version += 1
        self.tell(
            "textDocument/didChange",
            {"textDocument": {"uri": self.uri, "version": self.version}, "contentChanges": list(changes)},
        )

    def diagnostics(self, count):
        """Returns the diagnostics of the text as it is now, once there are so many: the first one may come alone."""

        def is_meant(it):
            params = it.get("params", {})
            return "diagnostics" in params and params.get("version") == self.version and len(
                params["diagnostics"]
            ) == count

        return self.wait_for(is_meant)["params"]["diagnostics"]


def main():
    """Starts a server as a client does that is killed then: writes the server's number, and waits."""
    server = started()
    server.stdin.write(bytes_of(id=1, method="initialize", params={"processId": os.getpid(), "capabilities": {}}))
    server.stdin.write(bytes_of(method="initialized", params={}))
    with open(sys.argv[1], encoding="utf-8") as opened:
        document = {"uri": "file:///a.fst", "languageId": "freest", "version": 1, "text": opened.read()}
    server.stdin.write(bytes_of(method="textDocument/didOpen", params={"textDocument": document}))
    server.stdin.flush()
    server.stdout.read1(1)
    print(server.pid, flush=True)
    signal.pause()


if __name__ == "__main__":
    main()
