"""PostgreSQL and MariaDB of Debian's packages in a folder, each with 100 accounts of 1,000, to try a tree over them:

    tools/live servers FOLDER

They run until this ends, at 127.0.0.1 and sockets in FOLDER alone. FOLDER is made, or goes on with what is there; its path is
short (a socket's has at most 107 bytes). FOLDER/env has what psql and leaves/leaf_postgres.py take from the environment,
FOLDER/my.cnf is the client's file for leaves/leaf_mariadb.py and its user. What is missing of the packages is installed.
"""
# Also the servers of tools/live leaf, bank and queue. All force what they promise.
import argparse
import os
import pwd
import shutil
import signal
import socket
import subprocess
import time
from pathlib import Path

QUIET = {"stdout": subprocess.DEVNULL, "stderr": subprocess.DEVNULL}
ACCOUNTS = 100
PATIENCE = 120  # seconds that a server may take to start: the machine may be busy
PACKAGES = {
    "psql": "postgresql", "mariadbd": "mariadb-server-core", "mariadb": "mariadb-client-core", "redis-server": "redis-server",
    "javac": "default-jdk-headless", "/usr/share/java/derby.jar": "libderby-java", "/usr/share/java/h2.jar": "libh2-java",
    "/usr/share/java/postgresql.jar": "libpostgresql-jdbc-java", "/usr/share/java/mariadb-java-client.jar": "libmariadb-java",
    "/usr/share/java/activemq-broker.jar": "activemq",
}


def need(*files):
    """Installs Debian's packages for the programs and files that are missing."""
    path = os.environ["PATH"] + ":/usr/sbin:/sbin"
    missing = sorted({PACKAGES[f] for f in files if not (os.path.exists(f) if f[0] == "/" else shutil.which(f, path=path))})
    if not missing:
        return
    if os.geteuid() != 0 and not shutil.which("sudo"):
        raise SystemExit(f"install these packages of Debian first: {' '.join(missing)}")
    print(f"installing {' '.join(missing)}", flush=True)
    apt = [*([] if os.geteuid() == 0 else ["sudo"]), "apt-get", "-q", "-y"]
    quiet = {"stdout": subprocess.DEVNULL, "env": {**os.environ, "DEBIAN_FRONTEND": "noninteractive"}}
    # a package that starts a server of its own as it is installed is told not to: what is started here is in a temporary folder
    policy = Path("/usr/sbin/policy-rc.d")
    made = os.geteuid() == 0 and not policy.exists()
    if made:
        policy.write_text("#!/bin/sh\nexit 101\n")
        policy.chmod(0o755)
    try:
        subprocess.run([*apt, "update"], check=True, **quiet)
        subprocess.run([*apt, "install", "--no-install-recommends", *missing], check=True, **quiet)
    finally:
        if made:
            policy.unlink()


def free_port():
    with socket.socket() as it:
        it.bind(("127.0.0.1", 0))
        return it.getsockname()[1]


class Server:
    """A server in `folder`. It is started again with the same data, by the same port."""
    name = ""

    def __init__(self, folder):
        self.folder, self.process, self.port, self.kills = Path(folder) / self.name, None, free_port(), 0

    def spawn(self, command, **more):
        with open(self.folder / "out", "ab") as out:
            self.process = subprocess.Popen([str(word) for word in command], cwd="/", stdin=subprocess.DEVNULL, stdout=out,
                                            stderr=subprocess.STDOUT, start_new_session=True, **more)

    def wait_for(self, is_up):
        until = time.time() + PATIENCE
        while time.time() < until:
            if is_up():
                return
            if self.process.poll() is not None:  # the sessions of a killed postmaster keep the next one out for a moment
                self.launch()
            time.sleep(0.05)
        raise SystemExit(f"{self.name} does not start: {self.folder / 'out'}")

    def kill(self):
        """The server alone: of PostgreSQL the sessions see it some milliseconds later, and finish what they are at."""
        self.kills += 1
        self.process.kill()
        self.process.wait()

    def start_again(self):
        """Over the data that an earlier run left."""
        self.start()

    def stop(self):
        if self.process is not None and self.process.poll() is None:
            self.process.send_signal(self.polite)
            try:
                self.process.wait(PATIENCE)
            except subprocess.TimeoutExpired:
                self.kill()
        self.process = None


class Postgres(Server):
    name, polite = "pg", signal.SIGINT
    table = ("CREATE TABLE account(id text PRIMARY KEY, balance bigint NOT NULL CHECK (balance >= 0));"
             f"INSERT INTO account SELECT 'n' || i, 1000 FROM generate_series(1, {ACCOUNTS}) i")

    def __init__(self, folder):
        super().__init__(folder)
        self.bin = sorted(Path("/usr/lib/postgresql").glob("*/bin"))[-1]
        # PostgreSQL refuses to be run by the superuser
        self.user = {"user": "postgres", "group": pwd.getpwnam("postgres").pw_gid, "extra_groups": []} if os.geteuid() == 0 else {}
        self.env = {**os.environ, "PGHOST": str(self.folder), "PGUSER": "postgres", "PGPORT": str(self.port)}

    def create(self):
        self.folder.mkdir(parents=True)
        if self.user:
            shutil.chown(self.folder, "postgres")
        subprocess.run([self.bin / "initdb", "-U", "postgres", "-A", "trust", "--no-sync", "-D", self.folder / "data"],
                       check=True, cwd="/", **QUIET, **self.user)
        with open(self.folder / "data" / "postgresql.conf", "a") as conf:
            conf.write(f"unix_socket_directories = '{self.folder}'\nlisten_addresses = '127.0.0.1'\nport = {self.port}\n"
                       "max_connections = 200\nmax_prepared_transactions = 300\n")
        self.start()
        for database, sql in (("postgres", "CREATE DATABASE bank"), ("bank", self.table)):
            subprocess.run(["psql", "-X", "-q", database, "-c", sql], env=self.env, check=True)

    def launch(self):
        self.spawn([self.bin / "postgres", "-D", self.folder / "data", "-p", self.port], **self.user)

    def start(self):
        self.launch()
        self.wait_for(lambda: subprocess.run(["psql", "-X", "-q", "-c", "SELECT 1", "postgres"], env=self.env, check=False,
                                             **QUIET).returncode == 0)

    def ask(self, sql):
        done = subprocess.run(["psql", "-X", "-q", "-t", "-A", "-c", sql, "bank"], env=self.env, check=True,
                              stdout=subprocess.PIPE, text=True)
        return done.stdout.split()

    def prepared(self):
        return self.ask("SELECT gid FROM pg_prepared_xacts")


class MariaDB(Server):
    name, polite = "my", signal.SIGTERM
    table = ("CREATE DATABASE bank; USE bank; CREATE TABLE account(id varchar(64) CHARACTER SET ascii COLLATE ascii_bin PRIMARY KEY, "
             "balance bigint NOT NULL CHECK (balance >= 0)) ENGINE=InnoDB;"
             f"INSERT INTO account SELECT concat('n', seq), 1000 FROM seq_1_to_{ACCOUNTS}")

    def __init__(self, folder):
        super().__init__(folder)
        self.me = pwd.getpwuid(os.geteuid()).pw_name

    def client(self, user="root"):
        return ["mariadb", "--no-defaults", "-S", str(self.folder / "s"), "-u", user]

    def options(self, user):
        """The client's file for this user, which is made as it is asked for."""
        self.ask(f"CREATE USER IF NOT EXISTS {user}@'localhost'; GRANT ALL ON bank.* TO {user}@'localhost';"
                 f"CREATE USER IF NOT EXISTS {user}@'127.0.0.1'; GRANT ALL ON bank.* TO {user}@'127.0.0.1'")
        path = self.folder / f"{user}.cnf"
        path.write_text(f"[client]\nsocket={self.folder / 's'}\nuser={user}\n")
        return path

    def create(self):
        self.folder.mkdir(parents=True)
        subprocess.run(["mariadb-install-db", "--no-defaults", f"--datadir={self.folder / 'data'}", f"--user={self.me}",
                        "--auth-root-authentication-method=normal", "--skip-test-db"], check=True, **QUIET)
        self.start()
        subprocess.run([*self.client(), "-e", self.table], check=True)

    def launch(self):
        self.spawn(["/usr/sbin/mariadbd", "--no-defaults", f"--datadir={self.folder / 'data'}", f"--user={self.me}",
                    f"--socket={self.folder / 's'}", "--bind-address=127.0.0.1", f"--port={self.port}", "--max-connections=300",
                    f"--pid-file={self.folder / 'mariadbd.pid'}"])

    def start(self):
        self.launch()
        self.wait_for(lambda: subprocess.run([*self.client(), "-e", "SELECT 1"], check=False, **QUIET).returncode == 0)

    def ask(self, sql):
        done = subprocess.run([*self.client(), "-N", "-B", "-e", sql, "bank"], check=True, stdout=subprocess.PIPE, text=True)
        return done.stdout.split()

    def prepared(self):
        return self.ask("XA RECOVER")


class Redis(Server):
    """Its streams are on the disk before it answers."""
    name, polite = "redis", signal.SIGTERM

    def create(self):
        self.folder.mkdir(parents=True)
        self.start()

    def launch(self):
        self.spawn(["redis-server", "--port", self.port, "--bind", "127.0.0.1", "--dir", self.folder, "--appendonly", "yes",
                    "--appendfsync", "always", "--save", ""])

    def start(self):
        self.launch()
        self.wait_for(self.is_up)

    def is_up(self):
        try:
            with socket.create_connection(("127.0.0.1", self.port), 1) as it:
                it.sendall(b"PING\r\n")
                return it.recv(64).startswith(b"+PONG")
        except OSError:
            return False

    def length(self, stream):
        """How many messages of a stream were not yet answered by their receiver."""
        with socket.create_connection(("127.0.0.1", self.port), PATIENCE) as it, it.makefile("rwb") as lines:
            lines.write(f"XLEN {stream}\r\n".encode())
            lines.flush()
            return int(lines.readline()[1:])


class ActiveMQ(Server):
    name, polite = "mq", signal.SIGTERM

    def create(self):
        self.folder.mkdir(parents=True)
        subprocess.run(["javac", "-nowarn", "-d", self.folder, "-cp", "/usr/share/java/*", Path(__file__).with_name("LiveBroker.java")],
                       check=True)
        self.start()

    def launch(self):
        self.spawn(["java", "-cp", f"{self.folder}:/usr/share/java/*", "LiveBroker", self.folder / "data", self.port])

    def start(self):
        self.launch()
        self.wait_for(self.is_up)

    def is_up(self):
        try:
            socket.create_connection(("127.0.0.1", self.port), 1).close()
            return True
        except OSError:
            return False


def main(words):
    parser = argparse.ArgumentParser(prog="tools/live servers", description=__doc__, formatter_class=argparse.RawDescriptionHelpFormatter)
    parser.add_argument("folder", metavar="FOLDER")
    folder = Path(parser.parse_args(words).folder).resolve()
    need("psql", "mariadbd", "mariadb")
    folder.mkdir(parents=True, exist_ok=True)
    with Servers(folder, Postgres, MariaDB) as (pg, my):
        my.options("rstar_4").replace(folder / "my.cnf")
        (folder / "env").write_text(f"export PGHOST={pg.folder} PGPORT={pg.port} PGUSER=postgres\n")
        print(f"PostgreSQL and MariaDB are up, until this ends: {folder}/env, {folder}/my.cnf", flush=True)
        try:
            signal.pause()
        except KeyboardInterrupt:
            pass
    return 0


class Servers:
    """Those of these classes, in a folder whose path is short (a socket's has at most 107 bytes) and which others may enter."""

    def __init__(self, folder, *classes):
        self.folder = Path(folder)
        self.folder.chmod(0o755)
        self.all = [one(self.folder) for one in classes]

    def __enter__(self):
        try:
            for server in self.all:
                server.start_again() if server.folder.exists() else server.create()
        except BaseException:
            self.__exit__()
            raise
        return self.all

    def __exit__(self, *_):
        for server in self.all:
            server.stop()
