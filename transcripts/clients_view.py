#!/usr/bin/env python3
"""Judges logs by what clients see, from the standard alone (RFC 7230 to 7234), and knows nothing of the law.

    clients_view.py [--each-found] [--known FOLDER] FILE-OR-FOLDER ..

Of each log that is told lawful it asks, of each client: what it heard is cut into requests and what it was said into replies;
they come in order, one to a request; each has the bytes of one response, or of one version of one URL, under one head and in the
length that it tells; nothing comes behind a reply that closes; and at no wait is a request open for which nothing is waited for.
What is found is told by file, line and title. The status is 1 where something is found, and with --each-found where a log has
nothing found in it.
"""

import argparse
import re
import sys
from collections import defaultdict
from pathlib import Path

from exchanges import Malformed, replies_of, reply_at, requests_of, value
from reader import Refusal, read

URL = re.compile(rb"(?i:http)://([^/?:]+)(?::([0-9]*))?([^ ]*)")
SPAN = re.compile(rb"bytes ([0-9]+)-([0-9]+)/([0-9]+)")


def url_of(target):
    """Host, port and path of an absolute target; None for another."""
    found = URL.fullmatch(target)
    if not found:
        return None
    path = found[3].partition(b"#")[0]
    return found[1].lower(), int(found[2] or 80), path if path.startswith(b"/") else b"/" + path


def strong_tag(fields):
    tag = value(fields, b"etag")
    return tag if tag and tag.startswith(b'"') else None


def span_of(reply):
    """First byte, end, and the length of the whole, that a reply's head tells; None where it tells none."""
    if reply.status == 206:
        found = SPAN.fullmatch(value(reply.fields, b"content-range") or b"")
        return (int(found[1]), int(found[2]) + 1, int(found[3])) if found else None
    if reply.status == 200 and reply.length is not None:
        return 0, reply.length, reply.length
    return None


class Version:
    """What origins sent of a version: at each offset the bytes, and the pages of disks that may have some."""

    def __init__(self):
        self.sent = defaultdict(set)

    def add(self, first, data):
        for at, byte in enumerate(data, first):
            self.sent[at].add(byte)

    def has(self, first, data):
        return all(byte in self.sent.get(at, ()) for at, byte in enumerate(data, first))


class Life:
    """What happened in a life: streams by client and by connection, and the waits with what was open then."""

    def __init__(self, image):
        self.image = image
        self.heard, self.said = defaultdict(bytearray), defaultdict(bytearray)
        self.asked, self.got = defaultdict(bytearray), defaultdict(bytearray)
        self.hosts, self.reached, self.closed = {}, set(), set()
        self.shut, self.cut = set(), set()
        self.is_stopped = False  # everybody is shut then, whatever was asked
        self.lost = set()  # a write to them failed
        self.stalls = []
        self.open = {}  # by client: its first request without a reply, or None; not there where that has to be found anew


def lives_of(happenings):
    """The lives of a log, each with its streams."""
    lives = []
    event = None  # the last one that could be read or written to
    for happening in happenings:
        name = happening[0]
        event = happening if name in ("CanRead", "CanWrite") else event
        if name == "Woke" or not lives:
            lives.append(Life(happening[1] if name == "Woke" else ()))
        life = lives[-1]
        if name in ("Heard", "Said"):
            life.open.pop(happening[1], None)
        if name in ("Heard", "Asked", "Got"):
            getattr(life, name.lower())[happening[1]] += happening[2]
        elif name == "Said":
            life.said[happening[1]] += happening[3]
            if not happening[3]:
                life.lost.add(happening[1])
        elif name == "Dialled":
            life.hosts[happening[1]] = (happening[2].lower(), happening[3])
        elif name == "Reached":
            life.reached.add(happening[1])
        elif name == "Dropped":
            life.closed.add(happening[1])
        elif name == "Stopped":
            life.is_stopped = True
        elif name == "Shut" and not life.is_stopped:
            life.shut.add(happening[1])
        elif name == "HungUp" and event == ("CanWrite", happening[1]):
            life.lost.add(happening[1])
        elif happening[:1] == ("Noted",) and happening[1][0] == "Cut":
            life.cut.add(happening[1][1])
        elif name == "Waits":
            look_at_wait(life, happening)
    return lives


def look_at_wait(life, wait):
    """Notes the clients that have a request open while nothing is waited for that could answer it."""
    _, _, reads, writes = wait
    wanted = {*reads, *writes}
    if any(number not in life.closed and (number in wanted or number not in life.reached) for number in life.hosts):
        return
    for number in life.heard:
        if number not in life.shut and number not in writes:
            if number not in life.open:
                life.open[number] = open_request(bytes(life.heard[number]), bytes(life.said[number]))
            request = life.open[number]
            if request is not None and (request.is_whole or number not in reads):
                life.stalls.append((number, request))


def open_request(heard, said):
    """The first request that has no whole reply; None without one."""
    requests, _ = requests_of(heard)
    try:
        replies, _ = replies_of(said, [request.method for request in requests])
    except Malformed:
        return None  # it is told elsewhere
    answered = sum(reply.is_whole for reply in replies)
    if answered == len(requests) or (replies and replies[-1].closes()):
        return None
    return requests[answered]


def responses_of(life):
    """The responses of a life, each with the URL that was asked for."""
    for number, got in life.got.items():
        asks, _ = requests_of(bytes(life.asked[number]))
        got = bytes(got)
        at = 0
        for ask in asks:
            try:
                response = reply_at(got, at, ask.method)
            except Malformed:
                break
            if response is None:
                break
            host, port = life.hosts.get(number, (None, None))
            yield (host, port, ask.target), ask, response
            at = response.end
            if not response.is_whole or at == len(got):
                break


class Judge:
    """Judges one log. What is found is in `found`."""

    def __init__(self, happenings):
        self.found = []
        self.versions = defaultdict(Version)
        self.responses = defaultdict(list)
        lives = lives_of(happenings)
        for life in lives:
            for url, ask, response in responses_of(life):
                self.responses[url].append((ask, response))
                self._note_version(url, response)
        for life in lives:
            for number in sorted(life.heard):
                self._judge_client(life, number)
            for number, request in life.stalls[:1]:
                self.found.append(f"client {number} waits for {request.target.decode('latin-1')}, and nothing is waited for")

    def _note_version(self, url, response):
        tag, span = strong_tag(response.fields), span_of(response)
        if tag and span:
            self.versions[url, tag, span[2]].add(span[0], response.body)

    def _judge_client(self, life, number):
        requests, is_left = requests_of(bytes(life.heard[number]))
        said = bytes(life.said[number])
        methods = [request.method for request in requests] + ["GET"] * is_left
        try:
            replies, end = replies_of(said, methods)
        except Malformed as why:
            self.found.append(f"client {number} is said what is no reply: {why}")
            return
        for early in replies[len(requests) :]:
            if early.status < 400 or not early.closes():
                self.found.append(f"client {number} is said {early.status} to a head that is not whole")
        for request, reply in zip(requests, replies):
            if why := self._why_not(life, request, reply):
                self.found.append(f"client {number} is said {reply.status} to {request.target.decode('latin-1')}: {why}")
        if end < len(said):
            closes = replies and replies[-1].closes()
            is_begun = len(replies) < len(methods) and not closes
            if not is_begun:
                behind = "a reply that closes" if closes else "the last reply"
                self.found.append(f"client {number} is said {len(said) - end} bytes behind {behind}")
        done = len(replies) - (1 if replies and not replies[-1].is_whole else 0)
        is_closed = replies and replies[-1].is_whole and replies[-1].closes()
        left = sum(request.is_whole for request in requests) - done
        if number in life.shut - life.cut - life.lost and left > 0 and not is_closed:
            self.found.append(f"client {number} is shut with {left} requests open")

    def _why_not(self, life, request, reply):
        """Why this is no reply to that request; None where it is one."""
        if reply.status == 206 and span_of(reply) is None and b"multipart" not in (reply.value(b"content-type") or b""):
            return "a part without its place"
        span, tag = span_of(reply), strong_tag(reply.fields)
        if span and reply.length is not None and reply.length != span[1] - span[0]:
            return f"a length of {reply.length} for {span[1] - span[0]} bytes"
        if not reply.body:
            return None
        url = url_of(request.target)
        if self._is_page(reply) or any(self._is_of(reply, ask, response) for ask, response in self.responses[url]):
            return None
        if span and tag:
            version = self.versions.get((url, tag, span[2]))
            if version and version.has(span[0], reply.body):
                return None
            if any(tag in file for _, file in life.image):
                return None  # an entry of the disk that this log did not see made
        return f"{len(reply.body)} bytes that are of no one response, and of no one version"

    @staticmethod
    def _is_page(reply):
        """A page of the proxy's own: its text is its status line's."""
        # one that is cut may end within its first word
        begin = b"%d " % reply.status
        is_front = begin[: len(reply.body)] == reply.body[: len(begin)]
        return reply.status >= 400 and is_front and b"text/plain" == reply.value(b"content-type")

    @staticmethod
    def _is_of(reply, ask, response):
        """It is this response as far as it came: status, framing and bytes."""
        if reply.status != response.status or not response.body.startswith(reply.body):
            return False
        if reply.framing == "length" and response.framing == "length":
            return reply.length == response.length and reply.value(b"content-range") == response.value(b"content-range")
        # what an origin sends to its end, or in chunks, is whole only where it came whole
        return not (reply.framing == "chunked" and reply.is_whole) or len(reply.body) == len(response.body)


def main():
    parser = argparse.ArgumentParser(description=__doc__.split("\n\n")[0])
    parser.add_argument("--each-found", action="store_true")
    parser.add_argument("--known", type=Path, action="append", default=[])
    parser.add_argument("paths", type=Path, nargs="+")
    words = parser.parse_args()
    try:
        logs = [log for log in read(words.paths, words.known) if log.verdict is None and log.change is None]
    except Refusal as refusal:
        print(refusal)
        return 1
    clean = 0
    for log in logs:
        found = Judge(log.happenings).found
        clean += not found
        for text in found:
            print(f"{log.file}:{log.line}: {log.title}: {text}")
    print(f"{len(logs)} logs, {len(logs) - clean} with something found")
    return int(clean > 0 if words.each_found else clean < len(logs))


if __name__ == "__main__":
    sys.exit(main())
