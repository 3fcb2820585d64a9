"""Random changes of a script's bytes."""
MARKS = b' \n\r\t\0"{}[]:,/-0123456789smcjqfPQ#\xff\xc3'


def damaged(draws, text):
    """A text with some bytes changed, and the place of the first of them."""
    first = len(text)
    for _ in range(draws.choice([1, 1, 1, 2, 5, 20])):
        place = draws.randrange(len(text) + 1)
        end = min(len(text), place + draws.choice([1, 1, 1, 3, 40]))
        piece = text[place:end]
        kind = draws.randrange(6)
        if kind == 0:
            text = text[:place] + bytes([draws.randrange(256)]) + text[end:]
        elif kind == 1:
            text = text[:place] + text[end:]
        elif kind == 2:
            text = text[:place] + piece + text[place:]
        elif kind == 3:
            text = text[:place] + bytes([draws.choice(MARKS)]) + text[place:]
        elif kind == 4:
            to = draws.randrange(len(text) + 1)
            first, text = min(first, to), text[:to] + piece + text[to:]
        else:
            text = text[:place]
        first = min(first, place)
    return text, first
