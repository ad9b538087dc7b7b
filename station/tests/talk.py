"""talk.py PORT: sends standard input to a loopback port, ends the sending side, and writes what comes back."""
import socket
import sys
import threading

data = sys.stdin.buffer.read()
with socket.create_connection(("127.0.0.1", int(sys.argv[1])), timeout=20) as s:

    def send():
        try:
            s.sendall(data)
            s.shutdown(socket.SHUT_WR)
        except OSError:
            pass  # the station may close first

    sender = threading.Thread(target=send)
    sender.start()
    while part := s.recv(65536):
        sys.stdout.buffer.write(part)
    sender.join()
