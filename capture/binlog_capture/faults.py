"""How a run goes wrong: in a way that another try may set right, or in one that it can't."""


class Dropped(Exception):
    """A connection, or a part of the pipeline, ended; another try may succeed."""


class Stuck(Dropped):
    """The lines can't be written: the disk is full, or the command ended."""


class Final(Exception):
    """Another try can't succeed. The status is that of the program; the number that of the server's error, if it is one."""

    def __init__(self, message, status=1, number=0):
        super().__init__(message)
        self.status, self.number = status, number
