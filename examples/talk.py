"""Two clients and an administrator talk to a server: talk.py CLIENTS ADMINS POLICY CONTEXTS"""

import socket
import sys
import time

clients, admins, *files = sys.argv[1:]
policy, contexts = (open(path, "rb").read() for path in files)


def connect(path):
    for _ in range(100):  # The server may still be starting.
        stream = socket.socket(socket.AF_UNIX)
        if stream.connect_ex(path) == 0:
            return stream.makefile("rwb")
        time.sleep(0.1)
    sys.exit(f"nobody listens at {path}")


def ask(who, line, texts=b""):
    peers[who].write(line.encode() + b"\n" + texts)
    peers[who].flush()
    answer = peers[who].readline().decode().rstrip("\n")
    print(f"{who:14} {line:60} {answer}")


peers = {"system_server": connect(clients), "untrusted_app": connect(clients), "administrator": connect(admins)}

# A service registers, and an application looks it up.
ask("system_server", "hello 100 1000 u:r:system_server:s0")
ask("system_server", "add activity o1 0 8")
ask("untrusted_app", "hello 200 10007 u:r:untrusted_app:s0")
ask("untrusted_app", "get activity")
ask("untrusted_app", "add activity o1 0 8")

# Under the next policy the application may not find it any more.
ask("administrator", "explain untrusted_app activity_service service_manager find")
stricter = policy.replace(b"allow binderuser activity_service", b"allow { binderuser -untrusted_app } activity_service")
ask("administrator", f"reload 1 {len(stricter)} {len(contexts)}", stricter + contexts)
ask("untrusted_app", "get activity")

ask("administrator", "seal")
ask("administrator", "version")
ask("system_server", "bye")
ask("untrusted_app", "bye")
