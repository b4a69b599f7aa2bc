"""Trouble on purpose, for the check: messages that are lost on their way, and a connection that is cut."""


class Trouble:
    """Each message whose sequence is a multiple of `lose` is lost once, and after `cut` messages the connection is cut, with all that was
    on its way. 0 is never."""

    def __init__(self, lose, cut):
        self.lose = lose
        self.cut = cut
        self.passed = 0
        self.losses = {}
        self.broken = None

    def takes(self, connection, message):
        """Whether the message is lost."""
        if connection is self.broken or self.is_chosen(message):
            return True
        self.passed += 1
        if self.passed == self.cut:
            self.broken = connection
            connection.close()
        return False

    def is_chosen(self, message):
        """One message of an inbox is chosen at most. The last of the stream is not: nothing would show that it is missing."""
        if not self.lose or message.status or not message.reply or message.reply.endswith(".0"):
            return False
        sequence = int(message.reply.split(".")[5])
        if sequence % self.lose or message.subscription in self.losses or sequence in self.losses.values():
            return False
        self.losses[message.subscription] = sequence
        return True
