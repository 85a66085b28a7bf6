"""A PostgreSQL server in a folder of its own, which listens on a socket in that folder alone."""
import glob
import os
import pwd
import shutil
import subprocess

MISSING = "there is no PostgreSQL here: apt-get update && apt-get install -y postgresql"
# A socket's path has at most so many bytes.
LONGEST_SOCKET = 107


class NoServer(Exception):
    """The server can't be made or started."""


def program(name):
    """Returns the path of one of the server's programs; Debian keeps them beside the path."""
    beside = sorted(glob.glob(f"/usr/lib/postgresql/*/bin/{name}"), key=lambda path: int(path.split("/")[4]))
    found = shutil.which(name) or (beside[-1] if beside else None)
    if not found:
        raise NoServer(MISSING)
    return found


class Server:
    """The server of a folder. It refuses to run as root, so root runs it as `postgres`, or as `nobody`."""

    def __init__(self, folder):
        self.folder = os.path.realpath(folder)
        self.user = None
        if os.getuid() == 0:
            names = {entry.pw_name for entry in pwd.getpwall()}
            self.user = "postgres" if "postgres" in names else "nobody"
        if len(f"{self.folder}/.s.PGSQL.5432") > LONGEST_SOCKET:
            raise NoServer(f"{self.folder} is too long a path for a socket")

    def database(self):
        """Returns how psql connects."""
        folder = self.folder.replace("\\", "\\\\").replace("'", "\\'")
        return f"host='{folder}' port=5432 user=postgres dbname=postgres"

    def call(self, name, *words):
        """Runs one of the server's programs; returns its status and what it said."""
        group = {"user": self.user, "group": pwd.getpwnam(self.user).pw_gid, "extra_groups": []} if self.user else {}
        how = {"cwd": "/", "stdin": subprocess.DEVNULL, "stdout": subprocess.PIPE, "stderr": subprocess.STDOUT, **group}
        ran = subprocess.run([program(name), *words], check=False, **how)
        return ran.returncode, ran.stdout.decode(errors="replace").strip()

    def is_made(self):
        return os.path.exists(f"{self.folder}/PG_VERSION")

    def make(self):
        """Makes the folder, and a database in it, where there is none. Whoever may enter the folder may use the database."""
        if self.is_made():
            return
        os.makedirs(self.folder, 0o700, exist_ok=True)
        if self.user:
            shutil.chown(self.folder, self.user, pwd.getpwnam(self.user).pw_gid)
        status, said = self.call("initdb", "-D", self.folder, "-U", "postgres", "-E", "UTF8", "--no-locale", "--auth=trust")
        if status:
            raise NoServer(f"initdb ended with {status}: {said}")

    def start(self):
        """Starts the server where it doesn't run; returns whether it was started."""
        self.make()
        if self.call("pg_ctl", "status", "-D", self.folder)[0] == 0:
            return False
        options = f"-c listen_addresses='' -c port=5432 -c unix_socket_permissions=0700 -c unix_socket_directories='{self.folder}'"
        status, said = self.call("pg_ctl", "start", "-w", "-t", "60", "-s", "-D", self.folder, "-l", f"{self.folder}/said", "-o", options)
        if status:
            raise NoServer(f"pg_ctl start ended with {status}: {said}; {self.folder}/said has more")
        return True

    def stop(self, how="fast"):
        """Stops the server: `fast`, or `immediate` as if it had been killed."""
        self.call("pg_ctl", "stop", "-w", "-t", "60", "-s", "-D", self.folder, "-m", how)
