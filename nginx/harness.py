"""What the tests and the measures of the module share: clients, servers behind nginx, and nginx itself, on loopback ports that are
free. Each ends what it started, by its id."""
import collections
import contextlib
import json
import os
import re
import shutil
import signal
import socket
import subprocess
import tempfile
import threading
import time

HERE = os.path.dirname(os.path.realpath(__file__))
MODULE = f"{HERE}/out/ngx_http_dmclock_module.so"
DEVICE = f"{HERE}/out/device"
LIMIT = 240  # seconds of a test
PATIENCE = 15  # and of a wait for something that is to happen


class Failed(Exception):
    pass


def check(holds, what):
    if not holds:
        raise Failed(what)


def free_port():
    with socket.socket() as probe:
        probe.bind(("127.0.0.1", 0))
        return probe.getsockname()[1]


def eventually(holds, what, patience=PATIENCE):
    """Waits until something holds."""
    end = time.monotonic() + patience
    while not holds():
        check(time.monotonic() < end, f"in vain: {what}")
        time.sleep(0.02)


# ---- clients


Response = collections.namedtuple("Response", "status headers body")


class Connection:
    """A connection of a client. Headers are pairs, so that one may come twice."""

    def __init__(self, port):
        self.socket = socket.create_connection(("127.0.0.1", port), timeout=PATIENCE)
        self.file = self.socket.makefile("rb")

    def send(self, path="/", method="GET", headers=(), body=None):
        lines = [f"{method} {path} HTTP/1.1", "Host: test", *(f"{name}: {value}" for name, value in headers)]
        if body is not None:
            lines.append(f"Content-Length: {len(body)}")
        self.socket.sendall("\r\n".join([*lines, "", ""]).encode("latin-1") + (body or b""))
        return self

    def read(self, has_body=True):
        line = self.file.readline()
        check(line.startswith(b"HTTP/1.1 "), f"no response: {line}")
        headers = {}
        while (header := self.file.readline()) not in (b"\r\n", b""):
            name, value = header.decode("latin-1").split(":", 1)
            known = headers.get(name.lower())
            headers[name.lower()] = f"{known}, {value.strip()}" if known else value.strip()
        status = int(line.split()[1])
        body = self.read_body(headers) if has_body and status >= 200 else b""
        return Response(status, headers, body)

    def read_body(self, headers):
        if headers.get("transfer-encoding") == "chunked":
            body = b""
            while size := int(self.file.readline(), 16):
                body += self.file.read(size)
                self.file.readline()
            self.file.readline()
            return body
        return self.file.read(int(headers.get("content-length", 0)))

    def is_silent(self, seconds=0.3):
        """Whether nothing comes for a while."""
        self.socket.settimeout(seconds)
        try:
            return not self.socket.recv(1, socket.MSG_PEEK)
        except TimeoutError:
            return True
        finally:
            self.socket.settimeout(PATIENCE)

    def close(self):
        self.file.close()
        self.socket.close()


def get(port, path="/", headers=(), method="GET", body=None):
    connection = Connection(port)
    response = connection.send(path, method, headers, body).read(method != "HEAD")
    connection.close()
    return response


# ---- servers


class Server:
    """A server behind nginx. It keeps the requests, and answers each one as soon as it may: at once, or if `hold` was called, when
    `release` is."""

    def __init__(self, port=None, headers="", status="200 OK", close_second=False):
        self.headers, self.status, self.close_second = headers, status, close_second
        self.requests, self.permits, self.is_open = [], threading.Semaphore(0), True
        self.listener = socket.socket()
        self.listener.setsockopt(socket.SOL_SOCKET, socket.SO_REUSEADDR, 1)
        self.listener.bind(("127.0.0.1", port or 0))
        self.listener.listen(256)
        self.port = self.listener.getsockname()[1]
        threading.Thread(target=self.accept, daemon=True).start()

    def accept(self):
        with contextlib.suppress(OSError):
            while True:
                connection, _ = self.listener.accept()
                threading.Thread(target=self.serve, args=(connection,), daemon=True).start()

    def serve(self, connection):
        file, served = connection.makefile("rb"), 0
        with contextlib.suppress(OSError, ValueError):
            while request := self.read(file):
                self.requests.append(request)
                served += 1
                if served == 2 and self.close_second:
                    break
                if not self.is_open:
                    self.permits.acquire(timeout=PATIENCE)
                body = f"served {request.path}".encode()
                head = f"HTTP/1.1 {self.status}\r\nContent-Length: {len(body)}\r\n{self.headers}\r\n"
                connection.sendall(head.encode() + (b"" if request.method == "HEAD" else body))
        connection.close()

    Request = collections.namedtuple("Request", "method path headers body")

    def read(self, file):
        line = file.readline().decode("latin-1").split()
        if len(line) != 3:
            return None
        headers = []
        while (header := file.readline()) not in (b"\r\n", b""):
            name, value = header.decode("latin-1").split(":", 1)
            headers.append((name.lower(), value.strip()))
        body, known = b"", dict(headers)
        if known.get("transfer-encoding") == "chunked":
            while size := int(file.readline(), 16):
                body += file.read(size)
                file.readline()
            file.readline()
        else:
            body = file.read(int(known.get("content-length", 0)))
        return self.Request(line[0], line[1], headers, body)

    def paths(self):
        return [request.path for request in self.requests]

    def stamps(self):
        """The counts that each request carried."""
        return [tuple(int(value) for name in ("dmclock-delta", "dmclock-rho") for key, value in request.headers if key == name)
                for request in self.requests]

    def costs(self):
        """The cost that each request carried; None if it carried none."""
        return [next((int(value) for key, value in request.headers if key == "dmclock-cost"), None) for request in self.requests]

    def hold(self):
        self.is_open = False

    def release(self, count=1):
        for _ in range(count):
            self.permits.release()

    def open(self):
        self.is_open = True
        self.release(1000)

    def close(self):
        self.open()
        with contextlib.suppress(OSError):
            self.listener.shutdown(socket.SHUT_RDWR)
        self.listener.close()


class Nginx:
    """A master with its workers."""

    checker = ()  # a command that runs it
    all = []

    def __init__(self, http, main="worker_processes 1;", port=None):
        self.folder = tempfile.mkdtemp(prefix="dmclock-nginx-")
        self.port = port or free_port()
        self.process = None
        Nginx.all.append(self)
        self.write(http, main)

    def write(self, http, main="worker_processes 1;"):
        temporary = "".join(f"{name}_temp_path {self.folder}/{name};" for name in ("client_body", "proxy", "fastcgi", "uwsgi", "scgi"))
        user = "user root;" if os.getuid() == 0 else ""
        self.config = f"{self.folder}/nginx.conf"
        with open(self.config, "w", encoding="utf-8") as file:
            file.write(f"load_module {MODULE};\ndaemon off; {user} {main}\nerror_log {self.folder}/error.log info;\n"
                       f"pid {self.folder}/pid;\nevents {{ worker_connections 8192; }}\n"
                       f"http {{ access_log off; {temporary}\n{http.replace('PORT', str(self.port)).replace('FOLDER', self.folder)}\n}}\n")

    def command(self, *words):
        return [shutil.which("nginx") or "/usr/sbin/nginx", "-p", self.folder, "-c", self.config, "-e", f"{self.folder}/error.log", *words]

    def test(self):
        """What nginx says of the settings, and whether it takes them."""
        ran = subprocess.run(self.command("-t"), stdout=subprocess.PIPE, stderr=subprocess.STDOUT, timeout=LIMIT, check=False)
        return ran.returncode == 0, ran.stdout.decode(errors="replace")

    def start(self):
        with contextlib.suppress(OSError):
            os.remove(f"{self.folder}/error.log")
        self.process = subprocess.Popen([*self.checker, *self.command()], stdout=subprocess.DEVNULL, stderr=subprocess.DEVNULL)
        eventually(self.is_up, f"nginx starts: {self.log()}", LIMIT)
        return self

    def is_listening(self):
        check(self.process.poll() is None, f"nginx ends: {self.log()}")
        with contextlib.suppress(OSError), socket.create_connection(("127.0.0.1", self.port), timeout=1):
            return True
        return False

    def is_up(self):
        return self.is_listening() and os.path.exists(f"{self.folder}/pid") and len(self.workers()) > 0

    def workers(self):
        with open(f"/proc/{self.process.pid}/task/{self.process.pid}/children", encoding="ascii") as file:
            return [int(word) for word in file.read().split()]

    def log(self):
        with contextlib.suppress(OSError), open(f"{self.folder}/error.log", encoding="utf-8", errors="replace") as file:
            return file.read()
        return ""

    def signal(self, number):
        self.process.send_signal(number)

    def end(self):
        """Ends it as a service does, and fails if a process of it crashed or complained."""
        if self.process and self.process.poll() is None:
            self.signal(signal.SIGQUIT)
            self.process.wait(LIMIT)
        if self.process:
            check(self.process.returncode == 0, f"nginx ends with {self.process.returncode}: {self.log()[-2000:]}")
        bad = [line for line in self.log().splitlines() if re.search(r"\[(alert|emerg|crit)\](?!.* connect\(\) to unix:)|exited on signal", line)]
        check(not bad, f"the log has {bad[:5]}")

    def remove(self):
        """Ends it at once, if it still runs. The master is stopped before its workers are looked for, so that it makes no new one."""
        if self.process and self.process.poll() is None:
            self.signal(signal.SIGSTOP)
            workers = self.workers()
            self.process.kill()
            self.process.wait()
            for worker in workers:
                with contextlib.suppress(ProcessLookupError):
                    os.kill(worker, signal.SIGKILL)
        shutil.rmtree(self.folder, ignore_errors=True)

    # -- what its page says

    def lines(self):
        return [json.loads(line) for line in get(self.port, "/status").body.splitlines()]

    def of(self, **wanted):
        """The line that has these values and no `more`: the first one."""
        for line in self.lines():
            if all(line.get(key) == value for key, value in wanted.items()):
                return line
        return {}

    def zone(self):
        return self.of(zone="z")

    def client(self, name):
        return self.of(client=name)


def stop(*them):
    for it in them:
        it.end() if isinstance(it, Nginx) else it.close()
