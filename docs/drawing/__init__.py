"""The pictures that docs/draw makes."""


class NotDrawn(Exception):
    """Why a text is not drawn."""
