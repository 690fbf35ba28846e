"""What stands in place of an answer."""


class ClusterFault(Exception):
    """The cluster gave no answer."""


class Failed(ClusterFault):
    """A question was tried again and again, and the program or the engine failed each time."""


class Lost(ClusterFault):
    """The engine lost what was asked, or was not there, for longer than the patience."""


class OtherProgram(ClusterFault):
    """A worker has another program than the one that asks."""


class Contradiction(ClusterFault):
    """An answer is none of those that the question can have, or two answers cannot both be true."""
