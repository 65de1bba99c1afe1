"""A PostgreSQL and a broker of the trials' own, on 127.0.0.1 and as a user without rights; and a client of that broker."""

import glob
import os
import pwd
import shutil
import signal
import subprocess
import sys
import threading
from contextlib import closing
from pathlib import Path

from programs import Run, connect, free_ports, until

BIN = "/usr/sbin:/usr/bin"


def missing_package():
    """The first package of Debian that is missing."""
    for package, there in [
        ("postgresql", glob.glob("/usr/lib/postgresql/*/bin/initdb")),
        ("mosquitto", shutil.which("mosquitto", path=BIN)),
        ("sqlite3", shutil.which("sqlite3")),
    ]:
        if not there:
            return package
    for package, module in [
        ("python3-psycopg2", "psycopg2"),
        ("python3-paho-mqtt", "paho.mqtt.client"),
        ("python3-matplotlib", "matplotlib"),
    ]:
        if subprocess.run([sys.executable, "-c", f"import {module}"], stderr=subprocess.DEVNULL, check=False).returncode:
            return package
    return None


class Servers:
    """Both servers, whose files are in a folder."""

    def __init__(self, folder):
        self.user = {"user": "nobody", "group": pwd.getpwnam("nobody").pw_gid, "extra_groups": []} if os.geteuid() == 0 else {}
        self.bin = Path(sorted(glob.glob("/usr/lib/postgresql/*/bin"))[-1])
        self.port, self.broker_port = free_ports(2)
        self.base = self.broker = None
        self.place = Path(folder, "servers")
        self.place.mkdir()
        if self.user:
            os.chmod(folder, 0o755)
            shutil.chown(self.place, "nobody")
        words = [self.bin / "initdb", "-D", self.place / "base", "-A", "trust", "-U", "geocom", "--no-sync", "-E", "UTF8", "--locale=C"]
        subprocess.run(words, check=True, cwd="/", stdout=subprocess.DEVNULL, **self.user)
        (self.place / "broker.conf").write_text(
            f"listener {self.broker_port} 127.0.0.1\nallow_anonymous true\nmax_queued_messages 0\n"
            f"persistence true\npersistence_location {self.place}/\n", encoding="utf-8")

    def __enter__(self):
        self.begin_base()
        self.begin_broker()
        return self

    def __exit__(self, *_):
        self.end_base()
        self.end_broker()

    def begun(self, *words):
        return Run(words, cwd="/", **self.user)

    def begin_base(self):
        self.base = self.begun(
            self.bin / "postgres", "-D", self.place / "base", "-p", self.port, "-c", "listen_addresses=127.0.0.1",
            "-c", "unix_socket_directories=", "-c", "shared_buffers=16MB")
        until(self.is_base_ready, "PostgreSQL doesn't answer", 30)

    def is_base_ready(self):
        import psycopg2

        try:
            self.ask("SELECT 1")
        except psycopg2.OperationalError:
            return False
        return True

    def begin_broker(self):
        self.broker = self.begun(shutil.which("mosquitto", path=BIN), "-c", self.place / "broker.conf")
        connect(self.broker_port).close()

    def where(self):
        """The database, as libpq has it."""
        return f"host=127.0.0.1 port={self.port} dbname=postgres user=geocom"

    def ask(self, query, *given):
        import psycopg2

        with closing(psycopg2.connect(self.where(), connect_timeout=5)) as base, base.cursor() as cursor:
            cursor.execute(query, given)
            return cursor.fetchall()

    def order(self, *statements):
        """Has the database carry these out."""
        import psycopg2

        with closing(psycopg2.connect(self.where(), connect_timeout=5)) as base, base, base.cursor() as cursor:
            for statement in statements:
                cursor.execute(statement)

    def end_base(self, how=signal.SIGINT):
        self.end(self.base, how)

    def end_broker(self, how=signal.SIGTERM):
        self.end(self.broker, how)

    @staticmethod
    def end(server, how):
        with server:
            server.send_signal(how)
            server.status(30)


class Listening:
    """A client of the broker that keeps what comes on these topics."""

    def __init__(self, port, topics):
        from paho.mqtt import client as mqtt

        self.came = []
        self.ready = threading.Event()
        self.client = mqtt.Client()
        self.client.on_connect = lambda client, *_: client.subscribe([(topic, 1) for topic in topics])
        self.client.on_subscribe = lambda *_: self.ready.set()
        self.client.on_message = lambda client, data, one: self.came.append((one.topic, one.payload))
        self.client.connect("127.0.0.1", port)
        self.client.loop_start()
        assert self.ready.wait(10), "the broker doesn't answer"

    def __enter__(self):
        return self

    def __exit__(self, *_):
        self.client.disconnect()
        self.client.loop_stop()
