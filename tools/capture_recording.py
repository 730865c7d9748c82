#!/usr/bin/python3
"""Writes crates/frames_captured/stdin, the octets that an h2 client sends, and the listing that is expected of them.

Needs Debian's python3-h2 and python3-hyperframe. The expected listing, crates/frames_captured/stdout,
is told by hyperframe's own parser; what a PRIORITY_UPDATE frame tells, which hyperframe does not
read, stands beside its value in PRIORITIES.
"""
import pathlib
import struct

import h2.config
import h2.connection
import h2.errors
import h2.events
import h2.settings
from hyperframe.frame import DataFrame, ExtensionFrame, Frame, RstStreamFrame, SettingsFrame, WindowUpdateFrame

PREFACE = b"PRI * HTTP/2.0\r\n\r\nSM\r\n\r\n"
PRIORITY_UPDATE = 0x10
STREAMS = 620

# Priority values, each with the urgency and the flag that it tells, or none where it is unreadable, as one with a parameter is.
PRIORITIES = [
    (b"u=0", (0, 0)),
    (b"u=1, i", (1, 1)),
    (b"u=6,i=?0", (6, 0)),
    (b"", (3, 0)),
    (b"i", (3, 1)),
    (b"u=5, note=-7 ,\ti=?1", (5, 1)),
    (b"u=9", (3, 0)),
    (b"u=2,", None),
    (b"u=2;i", None),
    (b"U=2", None),
]


class Exchange:
    """A client and a server that hand each other their octets; those of the client are kept."""

    def __init__(self):
        self.client = h2.connection.H2Connection(h2.config.H2Configuration(client_side=True))
        self.server = h2.connection.H2Connection(h2.config.H2Configuration(client_side=False))
        self.sent = bytearray()
        self.client.initiate_connection()
        self.server.initiate_connection()
        self.settle()

    def settle(self):
        """Hands octets over until neither side has any left."""
        while True:
            request = self.client.data_to_send()
            self.sent += request
            if request:
                self.serve(self.server.receive_data(request))
            response = self.server.data_to_send()
            if not request and not response:
                return
            for event in self.client.receive_data(response):
                if isinstance(event, h2.events.DataReceived):
                    self.client.acknowledge_received_data(event.flow_controlled_length, event.stream_id)

    def serve(self, events):
        """Answers each whole request with a body that is large at times, so that windows are updated."""
        for event in events:
            if isinstance(event, h2.events.StreamEnded):
                stream = event.stream_id
                self.server.send_headers(stream, [(":status", "200")])
                room = min(self.server.local_flow_control_window(stream), self.server.max_outbound_frame_size)
                self.server.send_data(stream, b"r" * min(room, 9000 * (stream % 3)), end_stream=True)

    def priority_update(self, stream, value):
        """A PRIORITY_UPDATE frame, which h2 does not send itself."""
        body = struct.pack(">I", stream) + value
        update = ExtensionFrame(type=PRIORITY_UPDATE, stream_id=0, body=body)
        update.body_len = len(body)
        self.sent += update.serialize()

    def request(self, turn):
        client = self.client
        stream = client.get_next_available_stream_id()
        headers = [(":method", "POST"), (":scheme", "https"), (":authority", "example.org"), (":path", f"/{turn}")]
        client.send_headers(stream, headers)
        if turn % 3 == 0:
            self.settle()
            self.priority_update(stream, PRIORITIES[turn // 3 % len(PRIORITIES)][0])
        client.send_data(stream, b"q" * (turn % 40))
        client.send_data(stream, b"z" * (turn % 7), pad_length=turn % 5)
        client.increment_flow_control_window(1 + turn * turn, stream)
        if turn % 4 == 0:
            client.reset_stream(stream, h2.errors.ErrorCodes(turn % 14))
        else:
            client.end_stream(stream)
        self.settle()


def capture():
    exchange = Exchange()
    client = exchange.client
    for turn in range(STREAMS):
        if turn % 10 == 0:
            client.ping(struct.pack(">Q", turn))
            client.increment_flow_control_window(65536)
        if turn % 25 == 0:
            client.update_settings({
                h2.settings.SettingCodes.INITIAL_WINDOW_SIZE: 65535 + turn,
                h2.settings.SettingCodes.MAX_HEADER_LIST_SIZE: 8192 + turn,
            })
            exchange.server.update_settings({h2.settings.SettingCodes.MAX_CONCURRENT_STREAMS: 100 + turn})
        if turn % 30 == 0:
            client.prioritize(client.get_next_available_stream_id(), weight=16, depends_on=0, exclusive=False)
        exchange.request(turn)
    client.close_connection(additional_data=b"bye")
    exchange.settle()
    assert exchange.sent.startswith(PREFACE)
    return bytes(exchange.sent[len(PREFACE):])


def fields(frame):
    """What a frame says, by hyperframe's account, and whether it is a fault."""
    if isinstance(frame, SettingsFrame):
        if "ACK" in frame.flags:
            return ["settings", "ack"], False
        return ["settings"] + [f"{identifier}={value}" for identifier, value in frame.settings.items()], False
    if isinstance(frame, WindowUpdateFrame):
        return ["window", frame.stream_id, frame.window_increment], False
    if isinstance(frame, RstStreamFrame):
        return ["reset", frame.stream_id, frame.error_code], False
    if isinstance(frame, DataFrame):
        return ["data", frame.stream_id, frame.body_len, int("END_STREAM" in frame.flags)], False
    if frame.type == PRIORITY_UPDATE:
        target = struct.unpack(">I", frame.body[:4])[0]
        told = dict(PRIORITIES)[frame.body[4:]]
        if told is None:
            return ["fault", 8, 0, target, 13], True
        return ["priority", target, *told], False
    return ["frame", frame.type, frame.stream_id], False


def expected(recording):
    octets = memoryview(recording)
    lines, faults, at = [], 0, 0
    while at < len(octets):
        frame, length = Frame.parse_frame_header(octets[at:at + 9])
        frame.parse_body(octets[at + 9:at + 9 + length])
        said, is_fault = fields(frame)
        lines.append(" ".join(str(field) for field in [len(lines), *said]))
        faults += is_fault
        at += 9 + length
    lines.append(f"sum {len(lines)} {faults} {len(octets)}")
    return "".join(line + "\n" for line in lines)


if __name__ == "__main__":
    crate = pathlib.Path(__file__).resolve().parent.parent / "crates" / "frames_captured"
    recording = capture()
    (crate / "stdin").write_bytes(recording)
    (crate / "stdout").write_text(expected(recording))
