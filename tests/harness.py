"""What the scripts of this folder and of `bench/` share: the programs that they run, servers, clients and upstreams,
messages of HTTP, the rows of tables, and the report."""
import collections, contextlib, json, os, pathlib, re, select, shutil, signal, socket, struct, subprocess, sys, tempfile
import threading, time

FOLDER = pathlib.Path(__file__).resolve().parent
TOP = FOLDER.parent
EXAMPLES = TOP / "examples"
FORWARDER = TOP / "crates" / "server_cases" / "out" / "server_cases"  # forwards a request as it is told
SCRIPT = pathlib.Path(sys.argv[0]).name
SKIPPED = 77  # the status of a script that can't run here

Row = collections.namedtuple("Row", "place given wanted")


# ---- programs

def programs():
    """Those that are given; or what the launcher starts, and the second build where it is as new."""
    given = [argument for argument in sys.argv[1:] if not argument.startswith("-")]
    if given:
        return [pathlib.Path(path).resolve() for path in given]
    with Server(TOP / "mock") as server:
        first = pathlib.Path(os.readlink(f"/proc/{server.process.pid}/exe"))
    second = first.with_name("mock.by-rattle")
    is_new = second.exists() and second.stat().st_mtime >= first.stat().st_mtime
    return [first, second] if is_new else [first]


def named_program():
    """The program that MOCK names, or the launcher."""
    name = os.environ.get("MOCK", str(TOP / "mock"))
    return os.path.abspath(name) if "/" in name else name


def is_installed(name):
    return shutil.which(name, path=f"{os.environ['PATH']}:/usr/sbin") is not None


def run(program, *arguments, **options):
    """What a command writes to its two streams, and its exit status."""
    options = {"cwd": TOP, "stdout": subprocess.PIPE, "stderr": subprocess.PIPE, "timeout": 20, **options}
    try:
        ended = subprocess.run([program, *arguments], **options)
    except subprocess.TimeoutExpired:
        return ["", "it goes on", ""]
    return [(ended.stdout or b"").decode(), (ended.stderr or b"").decode(), str(ended.returncode)]


def is_note(line):
    """Whether a line of standard error explains what was reported before it, or warns."""
    return line.startswith(("  ", "warning: "))


def without_notes(error):
    return "".join(line for line in error.splitlines(True) if not is_note(line))


def children(process):
    """The ids of the processes that a process, by its id, has started."""
    files = pathlib.Path(f"/proc/{process}/task").glob("*/children")
    return [int(child) for file in files for child in file.read_text().split()]


def descendants(process):
    return [one for child in children(process) for one in [child, *descendants(child)]]


def comes(condition, seconds=10):
    """Whether a condition holds within some seconds."""
    end = time.monotonic() + seconds
    while not (holds := condition()) and time.monotonic() < end:
        time.sleep(0.05)
    return holds


# ---- tables

def plain(cell):
    """The text of a cell: pictures stand for control characters, and `A × 2 + B × 1` for AAB."""
    parts = [part.rsplit(" × ", 1) for part in cell.split(" + ")] if " × " in cell else [[cell]]
    text = "".join(part[0] * int((part[1:] or ["1"])[0]) for part in parts)
    return re.sub("[\u2400-\u241f\u2421]", lambda it: "\x7f" if it[0] == "\u2421" else chr(ord(it[0]) - 0x2400), text)


def rows(name):
    """The rows of a table: the cells that are given, and those that are wanted."""
    found = []
    for number, line in enumerate((FOLDER / name).read_text().split("\n"), 1):
        if line and not line.startswith("#"):
            given, wanted = line.split("\t=>\t")
            cells = [[plain(cell) for cell in half.split("\t")] for half in (given, wanted)]
            found.append(Row(f"{name}:{number}", *cells))
    if not found:
        sys.exit(f"{name} has no rows")
    return found


# ---- servers

@contextlib.contextmanager
def document(content):
    """The path of a file that has this text, or this value as JSON, as long as it is used."""
    with tempfile.NamedTemporaryFile("w", suffix=".json") as file:
        file.write(content if isinstance(content, str) else json.dumps(content))
        file.flush()
        yield file.name


class NotServing(Exception):
    """A process whose first line doesn't say where it listens. `end` is what it wrote after it, and its exit status."""

    def __init__(self, first, end):
        super().__init__(f"the first line of a server: {first!r}, then {end}")
        self.end = end


class Listener:
    """A process whose first line says where it listens: this line, and the port in it. It may take so many seconds, or as
    long as it wants: the launcher may have to build the program first."""

    def __init__(self, command, stderr=subprocess.PIPE, seconds=None, **options):
        self.process = subprocess.Popen(command, cwd=TOP, stdout=subprocess.PIPE, stderr=stderr, **options)
        is_ready = select.select([self.process.stdout], [], [], seconds)[0]
        self.first = self.process.stdout.readline().decode() if is_ready else ""
        found = re.fullmatch(r"listening on \S+:(\d+)\n", self.first)
        if not found:
            raise NotServing(self.first, self.end())
        self.port = int(found[1])

    def end(self, seconds=20):
        """What it writes to its two streams from now on, and its exit status, where it ends by itself."""
        try:
            output, error = self.process.communicate(timeout=seconds)
        except subprocess.TimeoutExpired:
            self.stop()
            return ["", "it goes on", ""]
        return [output.decode(), (error or b"").decode(), str(self.process.returncode)]

    def stop(self):
        self.process.kill()
        self.process.wait()

    def __enter__(self):
        return self

    def __exit__(self, *_why):
        self.stop()


class Server(Listener):
    """`mock serve` on a free port, with the mappings of a document, where one is given: a text, or a value of JSON."""

    def __init__(self, program, *arguments, mappings=None, **options):
        with contextlib.ExitStack() as held:
            given = [] if mappings is None else ["--mappings", held.enter_context(document(mappings))]
            super().__init__([program, "serve", "--port", "0", *arguments, *given], **options)


def without_log(end):
    """The end of a server, without what standard error says of refused admin calls and of posted mappings, which
    `log_lines` compares: lines that begin so, and what belongs to them, which is indented."""
    output, error, status = end
    kept, is_logged = [], False
    for line in error.splitlines(keepends=True):
        is_logged = line.startswith(("refused ", "warning")) or is_logged and line.startswith("  ")
        if not is_logged:
            kept.append(line)
    return [output, "".join(kept), status]


def is_listening(port):
    with socket.socket() as probe:
        return probe.connect_ex(("127.0.0.1", port)) == 0


# ---- messages

def message(method, target, headers=(), content=b"", version=None):
    """A request. Headers are lines. HTTP/1.1 asks for a host; a request without one is one of HTTP/1.0."""
    has_host = any(header.lower().startswith("host:") for header in headers)
    version = version or ("HTTP/1.1" if has_host else "HTTP/1.0")
    length = [f"Content-Length: {len(content)}"] if content else []
    return "\r\n".join([f"{method} {target} {version}", *headers, *length, "", ""]).encode() + content


def response(stream, has_content=True):
    """The next response of a stream: its status, its headers, and its content; none where the stream ends before it. The
    names of headers are in lower case, as `mock` writes them."""
    line = stream.readline().decode().split(" ")
    if len(line) < 2:
        return None
    headers = []
    while header := stream.readline().decode().rstrip("\r\n"):
        headers.append(tuple(header.split(": ", 1)))
    has_content = has_content and line[1] not in ("100", "204", "304")
    if has_content and dict(headers).get("transfer-encoding") == "chunked":
        return line[1], headers, b"".join(chunks(stream))
    if has_content and "content-length" not in dict(headers):
        return line[1], headers, stream.read()
    length = int(dict(headers)["content-length"]) if has_content else 0
    return line[1], headers, stream.read(length)


def chunks(stream):
    """The chunks of a content that has them (RFC 9112, section 7.1)."""
    while length := int(stream.readline(), 16):
        yield stream.read(length)
        stream.readline()
    stream.readline()


# ---- clients

def connect(port):
    connection = socket.create_connection(("127.0.0.1", port), timeout=20)
    connection.setsockopt(socket.IPPROTO_TCP, socket.TCP_NODELAY, 1)
    return connection


def reset(connection):
    """Closes a connection at once, whatever is under way."""
    connection.setsockopt(socket.SOL_SOCKET, socket.SO_LINGER, struct.pack("ii", 1, 0))
    connection.close()


def everything(connection):
    """What comes until the connection ends."""
    found = b""
    try:
        while part := connection.recv(65536):
            found += part
    except ConnectionResetError:
        pass
    return found


def exchange(port, parts, waits=False):
    """What comes back for the parts of what is sent, after which the client says no more; the server may end the
    connection before. A client that waits sends the second part once something has come back for the first."""
    with connect(port) as connection:
        found = b""
        try:
            for number, part in enumerate(parts):
                found += connection.recv(65536) if waits and number == 1 else b""
                connection.sendall(part)
            connection.shutdown(socket.SHUT_WR)
        except OSError:
            pass
        return found + everything(connection)


class Client:
    """Sends requests to a server, over one connection as long as it stays open."""

    def __init__(self, port):
        self.port = port
        self.connection = None

    def call(self, method, target, headers=(), content=b""):
        """The status of the answer, and its content."""
        status, _headers, content = self.answer(method, target, headers, content)
        return status, content.decode()

    def headers(self, method, target, headers=(), content=b""):
        """The headers of the answer."""
        return self.answer(method, target, headers, content)[1]

    def answer(self, method, target, headers, content):
        sent = message(method, target, headers, content)
        status, received, content = self.sent(sent) or ("no answer", [("connection", "close")], b"")
        if b" HTTP/1.0\r\n" in sent or ("connection", "close") in received:
            self.close()
        return status, received, content

    def sent(self, message):
        self.connection = self.connection or connect(self.port)
        self.connection.sendall(message)
        with self.connection.makefile("rb") as stream:
            return response(stream)

    def close(self):
        if self.connection:
            self.connection.close()
        self.connection = None

    def admin(self, method, path, content=""):
        """The same of an admin call, whose content is a text."""
        return self.call(method, f"/__admin/{path}", ["Host: h"], content.encode())


# ---- upstreams

class Received(collections.namedtuple("Received", "head content")):
    """A request as bytes: its head without the empty line, and its content."""

    def first(self):
        return self.head.split(b"\r\n")[0].decode()

    def headers(self):
        return [tuple(line.split(b": ", 1)) for line in self.head.split(b"\r\n")[1:]]


def received(stream):
    """The request that a stream has; none where it ends within the head."""
    head = b""
    while not head.endswith(b"\r\n\r\n"):
        head += (line := stream.readline())
        if not line:
            return None
    found = Received(head.removesuffix(b"\r\n\r\n"), b"")
    return found._replace(content=stream.read(int(dict(found.headers()).get(b"content-length", 0))))


class Upstream(threading.Thread):
    """Takes connections one after the other, as many as it has replies, and sends to each the next of these once it has
    the whole request, or before that where it is `early`. A reply is bytes, or parts of them, of which a number is a pause
    in seconds; or a function that is called for it. A connection that isn't `closed` stays open until the client is gone.
    The requests are kept."""

    def __init__(self, replies, closed=True, early=False, address="127.0.0.1"):
        super().__init__(daemon=True)
        family, host = (socket.AF_INET6, f"[{address}]") if ":" in address else (socket.AF_INET, address)
        self.listener = socket.create_server((address, 0), family=family)
        self.port = self.listener.getsockname()[1]
        self.url = f"http://{host}:{self.port}"
        self.replies, self.closed, self.early, self.requests = replies, closed, early, []
        self.start()

    def run(self):
        for left, reply in zip(range(len(self.replies), 0, -1), self.replies):
            try:
                connection, _address = self.listener.accept()
            except OSError:
                return
            if left == 1:
                self.listener.close()
            with connection, contextlib.suppress(OSError):
                self.answer(connection, reply)

    def answer(self, connection, reply):
        connection.setsockopt(socket.IPPROTO_TCP, socket.TCP_NODELAY, 1)
        with connection.makefile("rb") as stream:
            if not self.early:
                self.receive(stream)
            given = reply() if callable(reply) else reply
            for part in [given] if isinstance(given, bytes) else given:
                time.sleep(part) if isinstance(part, float) else connection.sendall(part)
            if self.early:
                self.receive(stream)
            while not self.closed and stream.read1(65536):
                pass

    def receive(self, stream):
        if request := received(stream):
            self.requests.append(request)

    def stop(self):
        """Nobody listens on its port from now on."""
        with contextlib.suppress(OSError):
            self.listener.shutdown(socket.SHUT_RDWR)
        self.listener.close()


# ---- the report

def memory_library(folder):
    """Made in that folder: what is loaded before the C library to count calls for memory, and to let one fail."""
    library = pathlib.Path(folder) / "failing_memory.so"
    subprocess.run(["cc", "-O1", "-shared", "-fPIC", "-o", library, FOLDER / "failing_memory.c"], check=True)
    return library


def say(text):
    print(f"{SCRIPT}: {text}", file=sys.stderr)


def skip(why):
    """Ends a script that can't run here, by the status that says so."""
    say(f"skipped: {why}")
    sys.exit(SKIPPED)


def limit(seconds):
    """Ends a script that takes longer."""
    signal.signal(signal.SIGALRM, lambda _signal, _frame: sys.exit(f"{SCRIPT}: it takes more than {seconds} s"))
    signal.alarm(seconds)


class Report:
    """Counts what is compared, and keeps what differs."""

    def __init__(self):
        self.count = 0
        self.wrong = []

    def compare(self, place, given, found, wanted):
        self.count += 1
        if found != wanted:
            self.wrong.append(f"{place}: {str(given)[:300]}: {str(found)[:400]}, and not {str(wanted)[:400]}")

    def end(self):
        """Ends with status 1 where something differs or nothing was compared."""
        for line in self.wrong:
            say(line)
        say(f"{self.count} rows, {len(self.wrong)} differ")
        sys.exit(1 if self.wrong or not self.count else 0)
