"""The error of the translation."""


class NotTranslated(Exception):
    """Why there is no translation: what was found that the translator doesn't take."""
