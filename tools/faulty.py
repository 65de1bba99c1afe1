"""What is wrong with a text that a person wrote."""


class Faulty(Exception):
    """Why a text can't be used."""
