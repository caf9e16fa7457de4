"""A stub server for tests by pytest: `mock` in each test is one that knows no mappings yet."""
import json, os, re, subprocess, urllib.error, urllib.request

import pytest


class Mock:
    def __init__(self):
        command = [os.environ.get("MOCK", "mock"), "serve", "--port", "0", "--end-with-stdin"]
        self.process = subprocess.Popen(command, stdin=subprocess.PIPE, stdout=subprocess.PIPE, text=True)
        first = self.process.stdout.readline()  # listening on 127.0.0.1:PORT
        self.url = "http://" + re.fullmatch(r"listening on (\S+)\n", first)[1]

    def call(self, method, path, body=None):
        """The status of the answer and its text. A body is sent as JSON."""
        data = None if body is None else json.dumps(body).encode()
        request = urllib.request.Request(self.url + path, data, {"content-type": "application/json"}, method=method)
        try:
            with urllib.request.urlopen(request, timeout=10) as answer:
                return answer.status, answer.read().decode()
        except urllib.error.HTTPError as answer:
            return answer.code, answer.read().decode()

    def stub(self, request, response, **more):
        status, text = self.call("POST", "/__admin/mappings", {"request": request, "response": response, **more})
        assert status == 201, text

    def count(self, request):
        """How many requests were received that match."""
        return json.loads(self.call("POST", "/__admin/requests/count", request)[1])["count"]

    def reset(self):
        self.call("POST", "/__admin/reset")

    def end(self):
        """It ends with its standard input: what it says then is the number of events that it has compared."""
        rest, _none = self.process.communicate(timeout=20)
        assert re.fullmatch(r"settled \d+ events\n", rest) and self.process.returncode == 0


@pytest.fixture(scope="session")
def server():
    mock = Mock()
    yield mock
    mock.end()


@pytest.fixture
def mock(server):
    server.reset()
    return server
