"""What the parts of this tool raise."""


class Failure(Exception):
    """Why a module can't be translated."""
