"""A relay between a server and its clients, which notes each question and the code of its reply."""
import selectors
import socket
import struct
import threading

import tsig
import wire

CODES = {wire.NOERROR: "NOERROR", wire.SERVFAIL: "SERVFAIL", wire.NOTIMP: "NOTIMP", wire.REFUSED: "REFUSED",
         wire.NOTAUTH: "NOTAUTH"}
KINDS = {wire.SOA: "SOA", wire.IXFR: "IXFR", wire.AXFR: "AXFR", wire.NS: "NS"}


def shown(notes):
    """Notes in their order, with how often each comes in a row."""
    runs = []
    for note in notes:
        if runs and runs[-1][0] == note:
            runs[-1][1] += 1
        else:
            runs.append([note, 1])
    return ", ".join(note if count == 1 else f"{note} ({count} times)" for note, count in runs) or "nothing"


class Tap:
    """Takes queries over UDP and TCP at one port of 127.0.0.1, and passes them on to another."""

    def __init__(self, port, behind):
        self.behind, self.noted, self.lock = ("127.0.0.1", behind), [], threading.Lock()
        self.datagrams = socket.socket(socket.AF_INET, socket.SOCK_DGRAM)
        self.datagrams.bind(("127.0.0.1", port))
        self.listener = socket.create_server(("127.0.0.1", port), backlog=100)
        for work in (self._hear_datagrams, self._accept):
            threading.Thread(target=work, daemon=True).start()

    def of(self, zone):
        """What was asked of a zone since the last call, and what the replies said."""
        owner = wire.name(zone)
        with self.lock:
            found = [text for asked, text in self.noted if asked == owner]
            self.noted = [one for one in self.noted if one[0] != owner]
        return found

    def close(self):
        for one in (self.datagrams, self.listener):
            one.close()

    def _note(self, question, reply, transport):
        owner, at = wire.read_name(question, 12)
        kind = struct.unpack_from(">H", question, at)[0]
        code, is_notify = reply[3] & 15, question[2] >> 3 & 15 == 4
        words = ["signed"] * (tsig.split(question)[1] is not None) + ["NOTIFY" if is_notify else KINDS.get(kind, str(kind))]
        with self.lock:
            self.noted.append((owner.lower(), f"{' '.join(words)} over {transport} {CODES.get(code, code)}"))

    def _hear_datagrams(self):
        while True:
            try:
                question, client = self.datagrams.recvfrom(65_535)
            except OSError:
                return
            threading.Thread(target=self._pass_datagram, args=(question, client), daemon=True).start()

    def _pass_datagram(self, question, client):
        with socket.socket(socket.AF_INET, socket.SOCK_DGRAM) as server:
            server.settimeout(5)
            server.sendto(question, self.behind)
            try:
                reply = server.recv(65_535)
                self._note(question, reply, "UDP")
                self.datagrams.sendto(reply, client)
            except OSError:
                pass

    def _accept(self):
        while True:
            try:
                client, _ = self.listener.accept()
            except OSError:
                return
            threading.Thread(target=self._pass_stream, args=(client,), daemon=True).start()

    def _pass_stream(self, client):
        """Carries octets both ways until one side ends."""
        asked, questions, replies = {}, Frames(), Frames()
        try:
            server = socket.create_connection(self.behind)
        except OSError:
            client.close()
            return
        with client, server, selectors.DefaultSelector() as selector:
            selector.register(client, selectors.EVENT_READ, (server, questions))
            selector.register(server, selectors.EVENT_READ, (client, replies))
            try:
                while True:
                    for key, _ in selector.select():
                        octets = key.fileobj.recv(1 << 20)
                        if not octets:
                            return
                        other, frames = key.data
                        for message in frames.feed(octets):
                            if frames is questions:
                                asked[message[:2]] = message
                            elif message[:2] in asked:
                                self._note(asked.pop(message[:2]), message, "TCP")
                        other.sendall(octets)
            except OSError:
                pass


class Frames:
    """Cuts the octets of a stream into its messages."""

    def __init__(self):
        self.held = b""

    def feed(self, octets):
        """The messages that these octets complete."""
        held, at, found = self.held + octets, 0, []
        while at + 2 <= len(held) and at + 2 + int.from_bytes(held[at:at + 2], "big") <= len(held):
            end = at + 2 + int.from_bytes(held[at:at + 2], "big")
            found.append(held[at + 2:end])
            at = end
        self.held = held[at:]
        return found
