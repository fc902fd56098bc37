"""Why sources are refused."""


class Refusal(Exception):
    """Why sources are refused.

    rule     the number of the rule that is broken
    path     the path of the source in which the refusal has its place, or None
    start    where it is in the text of that source, in bytes of UTF-8; 0 where it has no place
    end      likewise, after the last byte
    message  what it says
    """

    def __init__(self, rule: int, path: str | None, start: int, end: int, message: str) -> None:
        super().__init__(f"E{rule}: {message}" if path is None else f"E{rule} {path} {start}..{end}: {message}")
        self.rule = rule
        self.path = path
        self.start = start
        self.end = end
        self.message = message

    def __reduce__(self) -> tuple[type["Refusal"], tuple[int, str | None, int, int, str]]:
        return Refusal, (self.rule, self.path, self.start, self.end, self.message)
