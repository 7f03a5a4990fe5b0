"""Defines the exception that stops the generator."""


class Stopped(Exception):
    """The reason why the generator can make nothing more, and what helps."""
