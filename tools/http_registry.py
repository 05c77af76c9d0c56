"""A registry at a URL, asked over connections that are kept, several requests at a time."""
import base64
import collections
import http.client
import json
import netrc
import os
import select
import ssl
import sys
import time
import urllib.request
from typing import NamedTuple, Optional
from urllib.parse import unquote, urlsplit

from asking import Answer, NoAnswer, RegistryError, shown, to_json

MEDIA_TYPE = "application/vnd.schemaregistry.v1+json"
AWAY = (429, 502, 503, 504)  # statuses of a registry, or of a proxy before it, that doesn't answer now
PATIENCE = 60                # seconds for which a registry that is away is asked again, unless the command line says otherwise
AT_ONCE = 8                  # requests under way to one registry, each on a connection of its own
CONNECTING, ANSWERING = 10, 60   # seconds


class Stopped(BaseException):
    """A signal asked the tool to stop."""

    def __init__(self, number):
        super().__init__(number)
        self.number = number


STOPPED = []   # the signals that came


def stop(number, frame):
    """Handles a signal. What is raised while a response is being removed from memory is lost, so the next request looks, too."""
    STOPPED.append(number)
    raise Stopped(number)


class Access(NamedTuple):
    """How a registry is asked, beside its URL."""
    user: Optional[str] = None
    password: str = ""
    authorities: Optional[str] = None   # files
    certificate: Optional[str] = None
    key: Optional[str] = None


class HttpRegistry:
    """A registry at a URL. Requests are sent again while it is away, for `patience` seconds."""

    def __init__(self, name, url, patience=PATIENCE, rate=None, access=Access()):
        self.name, self.url, self.patience = name, url.rstrip("/"), patience
        self.interval = 1 / rate if rate else 0.0
        self.next_turn = 0.0
        self.line = Line(name, self.url, access)

    def ask(self, request, is_done=None):
        """Returns the answer. If none came, `is_done` looks whether the request was carried out before it is sent again;
        then the answer is an empty one with the status 200. A request without `is_done` is one that may be sent twice."""
        begun, pause = time.monotonic(), 0.1
        while True:
            try:
                return self._finish(self._begin(request))
            except NoAnswer as fault:
                self._wait(fault, begun, max(pause, fault.pause))
            pause = min(2 * pause, 5.0)
            if is_done and is_done():
                return Answer(200, None)

    def ask_all(self, requests):
        """Gives the answers in the order of the requests, which may be sent twice. Several are under way at a time."""
        under_way = collections.deque()
        for request in requests:
            if len(under_way) == AT_ONCE:
                yield self._take(*under_way.popleft())
            under_way.append((request, self._try_to_begin(request)))
        while under_way:
            yield self._take(*under_way.popleft())

    def _try_to_begin(self, request):
        try:
            return self._begin(request)
        except NoAnswer:
            return None

    def _take(self, request, connection):
        """The answer of a request that is under way, or that is sent again."""
        try:
            if connection:
                return self._finish(connection)
        except NoAnswer:
            pass
        return self.ask(request)

    def _begin(self, request):
        """Sends a request, and returns the connection on which its answer comes."""
        if STOPPED:
            raise Stopped(STOPPED[0])
        self._wait_for_turn()
        return self.line.send(request)

    def _finish(self, connection):
        status, headers, data = self.line.receive(connection)
        if status in AWAY:
            after = headers.get("Retry-After", "")
            raise NoAnswer(f"status {status}", float(after) if after.isascii() and after.isdigit() else 0.0)
        if 300 <= status < 400:
            raise RegistryError(f"{self.name} sends on to {shown(headers.get('Location'))}; give that URL")
        try:
            answer = Answer(status, json.loads(data))
        except (ValueError, RecursionError):
            answer = Answer(status, None)
        if status in (401, 403) or status >= 500:
            raise RegistryError(f"{self.name} refuses: {answer.reason()}")
        if status == 200 and answer.body is None:
            raise RegistryError(f"{self.name} at {self.url} answers something that isn't JSON; is it a registry?")
        return answer

    def _wait(self, fault, begun, pause):
        """Waits before a request is sent again, if there is patience left."""
        if time.monotonic() + pause > begun + self.patience:
            raise RegistryError(f"{self.name} doesn't answer at {self.url}: {fault}") from None
        if pause > 2:
            print(f"{self.name} doesn't answer at {self.url}: {fault}; asking again", file=sys.stderr, flush=True)
        time.sleep(pause)

    def _wait_for_turn(self):
        """Keeps the rate, if there is one."""
        if self.interval:
            now = time.monotonic()
            time.sleep(max(0.0, self.next_turn - now))
            self.next_turn = max(now, self.next_turn) + self.interval


class Line:
    """The connections to one registry. Proxies, passwords and authorities are read once."""

    def __init__(self, name, url, access):
        place = urlsplit(url)
        self.name, self.url = name, url
        self.host, self.port, self.is_safe = place.hostname, place.port, place.scheme == "https"
        self.before = place.path
        self.headers = {"Accept": f"{MEDIA_TYPE}, application/json"}
        user, password = (access.user, access.password) if access.user is not None else netrc_entry(self.host)
        if user is not None:
            self.headers["Authorization"] = basic(user, password)
        self.context = self._trusting(access) if self.is_safe else None
        self.proxy = proxy_for(place)
        if self.proxy and not self.is_safe:
            self.before = f"{place.scheme}://{place.netloc}{place.path}"
            if self.proxy.username:
                self.headers["Proxy-Authorization"] = basic(unquote(self.proxy.username), unquote(self.proxy.password or ""))
        self.idle = []

    def _trusting(self, access):
        try:
            context = ssl.create_default_context(cafile=access.authorities)
            if access.certificate:
                context.load_cert_chain(access.certificate, access.key)
        except (OSError, ssl.SSLError) as fault:
            raise RegistryError(f"the certificates for {self.name}: {fault}") from None
        return context

    def _connect(self):
        host, port = (self.proxy.hostname, self.proxy.port) if self.proxy else (self.host, self.port)
        if not self.is_safe:
            connection = http.client.HTTPConnection(host, port, timeout=CONNECTING)
        else:
            connection = http.client.HTTPSConnection(host, port, timeout=CONNECTING, context=self.context)
            if self.proxy:
                word = {"Proxy-Authorization": basic(unquote(self.proxy.username), unquote(self.proxy.password or ""))}
                connection.set_tunnel(self.host, self.port, word if self.proxy.username else {})
        connection.connect()
        connection.sock.settimeout(ANSWERING)
        return connection

    def send(self, request):
        """Sends a request on a connection that is free, or a new one, and returns that."""
        data = None if request.body is None else to_json(request.body)
        headers = self.headers if data is None else {**self.headers, "Content-Type": MEDIA_TYPE}
        with self._faults():
            connection = self._free()
            try:
                connection.request(request.method, self.before + request.path, data, headers)
            except BaseException:
                connection.close()
                raise
            return connection

    def _free(self):
        """A connection that the other side hasn't closed."""
        while self.idle:
            connection = self.idle.pop()
            if connection.sock and not select.select([connection.sock], [], [], 0)[0]:
                return connection
            connection.close()
        return self._connect()

    def receive(self, connection):
        """The status, the header fields and the body of the answer."""
        with self._faults():
            try:
                response = connection.getresponse()
                data = response.read()
                response.close()
            except BaseException:
                connection.close()
                raise
        if not response.will_close:
            self.idle.append(connection)
        return response.status, response.headers, data

    def _faults(self):
        return Faults(self.name, self.url)


class Faults:
    """Turns errors of connections into those that the tools know."""

    def __init__(self, name, url):
        self.name, self.url = name, url

    def __enter__(self):
        return self

    def __exit__(self, kind, fault, trace):
        if isinstance(fault, (ssl.SSLEOFError, ssl.SSLZeroReturnError)):
            raise NoAnswer("the connection was closed") from None
        if isinstance(fault, ssl.SSLError):
            raise RegistryError(f"{self.name} at {self.url}: {fault}") from None
        if isinstance(fault, (http.client.InvalidURL, UnicodeError)):
            raise RegistryError(f"{self.name} can't be asked: {fault}") from None
        if isinstance(fault, (OSError, http.client.HTTPException)):
            raise NoAnswer(getattr(fault, "strerror", None) or str(fault) or kind.__name__) from None


def basic(user, password):
    return "Basic " + base64.b64encode(f"{user}:{password}".encode()).decode()


def netrc_entry(host):
    """The user and the password that a netrc file has for the host, or None twice."""
    path = os.environ.get("NETRC") or os.path.expanduser("~/.netrc")
    try:
        entry = netrc.netrc(path).authenticators(host)
    except (OSError, netrc.NetrcParseError):
        entry = None
    return (entry[0], entry[2] or "") if entry else (None, None)


def proxy_for(place):
    """The proxy that the environment names for a URL, or None."""
    proxy = urllib.request.getproxies().get(place.scheme)
    if not proxy or urllib.request.proxy_bypass(place.netloc.rpartition("@")[2]):
        return None
    proxy = urlsplit(proxy if "://" in proxy else f"http://{proxy}")
    if proxy.scheme != "http":
        raise RegistryError(f"a proxy of the kind {proxy.scheme} isn't known")
    return proxy
