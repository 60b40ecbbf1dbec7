"""How the programs of readings word an answer."""


def told(answer):
    """`accepted` or `refused`, and the number."""
    return ["refused" if answer[0] == "refused" else "accepted", answer[1]]


def placed(answer):
    """The same, and the place of a refusal: 0 where it has none."""
    return [*told(answer), *(answer[2:] if answer[0] == "refused" else [0])]
