"""Two small uses of the client: a store of web sessions, and balances that several clients change."""

import json
import secrets

from hemwaziq import WrongGeneration


class Sessions:
    """Sessions that end when they weren't used for so many seconds."""

    def __init__(self, client, life=1_800):
        self.client = client
        self.life = life

    def begin(self, **values):
        """A new session, and its name."""
        name = secrets.token_hex(16)
        self.client.put(name, json.dumps(values).encode(), ttl=self.life, expect=0, within="sessions")
        return name

    def load(self, name):
        """The values of a session, which lives on from now; None where it has ended."""
        record = self.client.get(name, within="sessions")
        if record is None:
            return None
        try:
            self.client.put(name, record.data, ttl=self.life, expect=record.generation, within="sessions")
        except WrongGeneration:
            pass  # another request has just changed it, and so it lives on
        return json.loads(record.data)

    def end(self, name):
        """The session doesn't come back, also behind a loss of power once that is flushed."""
        self.client.bury(name, within="sessions")


def add(client, account, amount, tries=100):
    """Adds to a balance, and answers the new one. Between its get and its put another client may change it: then the put is refused, since
    the generation isn't the one that was seen, and it begins again. So no amount is lost."""
    for _ in range(tries):
        record = client.get(account, within="balances")
        balance = (int(record.data) if record else 0) + amount
        if balance < 0:
            raise ValueError(f"{account} has {balance - amount}")
        try:
            client.put(account, str(balance).encode(), expect=record.generation if record else 0, within="balances")
            return balance
        except WrongGeneration:
            continue
    raise RuntimeError(f"{account} was changed {tries} times meanwhile")
