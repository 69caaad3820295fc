"""How a sub-command ends: its exit statuses, and what is raised to end it early with one line on standard error. 0 to 5 mean what they mean of ./replay."""

DONE = 0
CANNOT_RUN = 1
WRONG_USE = 2
DAMAGED = 3
CANNOT_READ = 4
CANNOT_WRITE = 5
NO = 6

STATUSES = """exit status: 0, done; 6, done, and the answer is no: somebody is refused, or a log is not the one that the rules give;
3, a trace or a log is damaged, and all up to the damage was shown; 4, a file can't be read or does not say what it must;
5, nothing can be written; 2, wrong use; 1, the proved program could not be built or run"""


class Ended(Exception):
    """The end of a sub-command: one line for a person, and the exit status."""

    def __init__(self, said, status):
        super().__init__(said)
        self.status = status


def cannot_read(place, why):
    """What is wrong with an input: where, with file, line and field as far as there are such, and why."""
    return Ended(f"{place}: {why}", CANNOT_READ)
