"""One who hears and speaks on the loopback device, for storm.py: it sees every packet between some ports and puts packets there with any sender's port."""

import random
import socket
import struct
import threading


# ports that the machine gives to nobody of itself, on Linux as it is set where nobody changes it
FIRST_PORT, LAST_PORT = 20000, 32000


def free_ports(count, address='127.0.0.1'):
    """Ports of this machine that none listens at; none where it has no such address."""
    found = []
    for _ in range(100 * count):
        port = random.randrange(FIRST_PORT, LAST_PORT)
        with socket.socket(socket.AF_INET6 if ':' in address else socket.AF_INET, socket.SOCK_DGRAM) as tried:
            try:
                tried.bind((address, port))
            except OSError:
                continue
        if port not in found:
            found.append(port)
        if len(found) == count:
            return found
    return []


def addresses(ports, address='127.0.0.1'):
    """A hosts file."""
    return ''.join('%s:%d\n' % ('[%s]' % address if ':' in address else address, port) for port in ports).encode()


class Wire(threading.Thread):
    """What it has seen is in `seen`: ports of sender and taker, and the payload. `heeds` is called with each, where it is set."""

    def __init__(self, ports):
        super().__init__()
        self.ports, self.seen, self.over, self.heeds, self.puts = set(ports), [], False, None, 0
        self.ears = socket.socket(socket.AF_PACKET, socket.SOCK_RAW, socket.htons(3))
        self.ears.bind(('lo', 0))
        self.ears.settimeout(.05)
        self.mouth = socket.socket(socket.AF_INET, socket.SOCK_RAW, socket.IPPROTO_RAW)

    @staticmethod
    def may():
        try:
            socket.socket(socket.AF_PACKET, socket.SOCK_RAW, socket.htons(3)).close()
            socket.socket(socket.AF_INET, socket.SOCK_RAW, socket.IPPROTO_RAW).close()
            return True
        except OSError:
            return False

    def run(self):
        while not self.over:
            try:
                frame, about = self.ears.recvfrom(65536)
            except TimeoutError:
                continue
            # each packet is seen when it goes and when it comes
            if about[2] == socket.PACKET_OUTGOING or len(frame) < 42 or frame[12:14] != b'\x08\x00' or frame[23] != 17:
                continue
            from_port, to_port = struct.unpack('>HH', frame[34:38])
            if from_port in self.ports and to_port in self.ports:
                self.seen.append((from_port, to_port, frame[42:]))
                if self.heeds is not None:
                    self.heeds(from_port, to_port, frame[42:])

    def put(self, from_port, to_port, payload):
        udp = struct.pack('>HHHH', from_port, to_port, 8 + len(payload), 0) + payload
        here = socket.inet_aton('127.0.0.1')
        self.mouth.sendto(struct.pack('>BBHHHBBH4s4s', 69, 0, 20 + len(udp), 0, 0, 64, 17, 0, here, here) + udp, ('127.0.0.1', 0))
        self.puts += 1

    def __enter__(self):
        self.start()
        return self

    def __exit__(self, *_):
        self.over = True
        self.join()
        self.ears.close()
        self.mouth.close()
