"""The bytes of a client: requests, replies, STOPs and their pieces, and the key-value service of the answers."""
import hashlib
import hmac
import struct

CLIENT_PEER = 255
CLIENT_PORT = 100
PIECE = 32768


def keyed(key, text):
    return hmac.new(key, text, hashlib.sha256).digest()


def text16(value):
    return struct.pack(">H", len(value)) + value


class Config:
    """The settings and operations of a config's text."""

    def __init__(self, text):
        self.text = text
        rows = [line.split(" ") for line in text.splitlines()]
        words = {row[0]: row[1] for row in rows if row[0] != "op"}
        self.faults, self.interval, self.port = (int(words[name]) for name in ("f", "k", "port"))
        self.hosts = 2 * self.faults + 1
        self.secret = bytes.fromhex(words["secret"])
        self.operations = [bytes.fromhex(row[1].replace("-", "")) for row in rows if row[0] == "op"]


def client_key(config, client):
    return keyed(config.secret, b"C" + bytes([client]))


def request(config, client, number, operation):
    said = bytes([client]) + struct.pack(">Q", number) + text16(operation)
    return b"\x01" + said + keyed(client_key(config, client), b"Q" + said)


def stop(config):
    return b"\x10" + keyed(client_key(config, 0), b"S")


def read_reply(config, client, message):
    """(host, number, position, result) of a reply with a right tag, else None."""
    if len(message) < 53 or message[0] != 4 or message[2] != client:
        return None
    host, number, position = message[1], *struct.unpack(">QQ", message[3:19])
    size = struct.unpack(">H", message[19:21])[0]
    said, tag = message[1 : 21 + size], message[21 + size :]
    if keyed(client_key(config, client), b"R" + said) != tag:
        return None
    return host, number, position, message[21 : 21 + size]


def pieces(sender, number, message):
    parts = [message[at : at + PIECE] for at in range(0, len(message), PIECE)]
    return [struct.pack(">BIHH", sender, number, index, len(parts)) + part for index, part in enumerate(parts)]


class Joiner:
    """Whole messages out of pieces, one at a time for each sender."""

    def __init__(self):
        self.open = {}

    def push(self, datagram):
        if len(datagram) < 10:
            return None
        sender, number, index, count = struct.unpack(">BIHH", datagram[:9])
        if index == 0:
            self.open[sender] = (number, count, [])
        held = self.open.get(sender)
        if held is None or held[:2] != (number, count) or len(held[2]) != index:
            return None
        held[2].append(datagram[9:])
        if len(held[2]) < count:
            return None
        del self.open[sender]
        return b"".join(held[2])


class Store:
    """The key-value service: what each operation answers."""

    def __init__(self):
        self.values = {}

    def apply(self, operation):
        try:
            code, words = operation[0], self.words_of(operation)
        except IndexError:
            return b"\x05"
        if code == 1:
            self.values[words[0]] = words[1]
            return b"\x00"
        if words[0] not in self.values:
            return b"\x02"
        value = self.values[words[0]]
        if code == 2:
            return b"\x01" + text16(value)
        if code == 3:
            del self.values[words[0]]
        elif value != words[1]:
            return b"\x03" + text16(value)
        else:
            self.values[words[0]] = words[2]
        return b"\x00"

    @staticmethod
    def words_of(operation):
        """The key and the values of a well formed operation; IndexError for another."""
        size = operation[1]
        words, rest = [operation[2 : 2 + size]], operation[2 + size :]
        while rest:
            size = rest[0] * 256 + rest[1]
            words.append(rest[2 : 2 + size])
            if len(words[-1]) < size:
                raise IndexError
            rest = rest[2 + size :]
        if not 1 <= len(words[0]) <= 64 or len(words) != {1: 2, 2: 1, 3: 1, 4: 3}.get(operation[0]):
            raise IndexError
        return words


def expected_lines(config):
    """The result lines of a client whose operations are each ordered once, one after the other, from position 1 on."""
    store = Store()
    results = [store.apply(operation) for operation in config.operations]
    return [f"result {i} {i} {result.hex()}" for i, result in enumerate(results, 1)]
