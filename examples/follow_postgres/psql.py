"""A session with PostgreSQL through its client `psql`, which comes with the server: no driver is wanted."""
import subprocess
import tempfile


class Lost(Exception):
    """The session ended: the server is gone, or refused what it was given. An open transaction is rolled back."""


class Psql:
    """Each statement goes to psql's standard input, and after it a line that psql prints when it gets there. At the first error, and
    where the server is gone, psql ends: it never goes on in another session, so a lock that the session took is held while it lives."""

    def __init__(self, database):
        words = ["psql", "-X", "-q", "-A", "-t", "-F", "\t", "-v", "ON_ERROR_STOP=1", "-d", database]
        self.causes = tempfile.TemporaryFile()
        try:
            self.child = subprocess.Popen(words, stdin=subprocess.PIPE, stdout=subprocess.PIPE, stderr=self.causes)
        except FileNotFoundError:
            raise SystemExit("follow-postgres: there is no psql: apt-get update && apt-get install -y postgresql") from None
        self.marks = 0
        self.ask("set client_min_messages = warning")

    def send(self, text):
        """Hands on bytes."""
        try:
            self.child.stdin.write(text)
        except (BrokenPipeError, ValueError):
            raise self.lost() from None

    def mark(self):
        """Asks for a line once all that was sent is done; returns its number."""
        self.marks += 1
        self.send(b"\\echo =done %d\n" % self.marks)
        try:
            self.child.stdin.flush()
        except (BrokenPipeError, ValueError):
            raise self.lost() from None
        return self.marks

    def wait(self, mark):
        """Waits for that line; returns the rows that were printed in front of it."""
        rows = []
        for line in self.child.stdout:
            text = line.decode().rstrip("\n")
            if text.startswith("=done "):
                if int(text[6:]) == mark:
                    return rows
            else:
                rows.append(text.split("\t"))
        raise self.lost()

    def ask(self, statement):
        """Returns the rows that a statement gives."""
        self.send(statement.encode() + b";\n")
        return self.wait(self.mark())

    def lost(self):
        """Ends the session; returns its error."""
        self.close()
        self.causes.seek(0)
        said = [line for line in self.causes.read().decode(errors="replace").splitlines() if line.strip()]
        return Lost(said[0] if said else "psql ended")

    def close(self):
        """Ends the session. What was not committed is rolled back."""
        self.child.kill()
        for end in (self.child.stdin, self.child.stdout):
            try:
                end.close()
            except OSError:
                pass
        self.child.wait()


def quoted(text):
    """Returns a text as SQL spells it."""
    return "'" + text.replace("'", "''") + "'"
