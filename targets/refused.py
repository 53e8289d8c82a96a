"""What a check of a module or of an object raises."""


class Refused(Exception):
    pass
