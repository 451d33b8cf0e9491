"""Asks 1,000 times over one connection, one request after another, five times. Fails where a reply is not the file's bytes, or where each of the five
takes a second: a reply that waits for the peer's delayed acknowledgement takes 40 ms."""
import socket
import sys
import time

port = int(sys.argv[1])
wanted = open(sys.argv[2], "rb").read()


def ask(connection):
    connection.sendall(b"GET /people HTTP/1.1\r\nHost: localhost\r\n\r\n")
    reply = b""
    while len(reply) < len(wanted):
        piece = connection.recv(65536)
        if not piece:
            sys.exit("the connection ended early")
        reply += piece
    if reply != wanted:
        sys.exit("another reply")


def seconds():
    with socket.create_connection(("127.0.0.1", port), timeout=10) as connection:
        start = time.monotonic()
        for _ in range(1000):
            ask(connection)
        return time.monotonic() - start


taken = min(seconds() for _ in range(5))
print(f"1,000 requests over one connection: {taken:.2f} s")
if taken >= 1:
    sys.exit(1)
