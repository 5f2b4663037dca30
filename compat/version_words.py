"""Stands between a client and a server, and takes the words behind `version` away: LISTEN PORT.

So it can be seen what else tests find that send `version foo bar` and want the version.
"""

import re
import socket
import sys
import threading


def pump(source, sink, change):
    try:
        while piece := source.recv(65536):
            sink.sendall(change(piece))
        sink.shutdown(socket.SHUT_WR)
    except OSError:
        sink.close()


def main():
    listener = socket.create_server(("127.0.0.1", int(sys.argv[1])))
    while True:
        client, _ = listener.accept()
        server = socket.create_connection(("127.0.0.1", int(sys.argv[2])))
        without = lambda piece: re.sub(rb"(?m)^version [^\r\n]*", b"version", piece)
        threading.Thread(target=pump, args=(client, server, without), daemon=True).start()
        threading.Thread(target=pump, args=(server, client, lambda piece: piece), daemon=True).start()


main()
