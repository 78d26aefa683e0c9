"""Changes of a text at random places, byte by byte."""
NESTS = (b'(', b'-', b'sext32(', b'IF a[0] ', b'ABS(', b'a[', b'{', b'//', b'0x')


def changed(text, rng):
    """The text with one change."""
    at = rng.randrange(len(text) + 1)
    end = min(len(text), at + 1 + int(rng.expovariate(1 / 12)))
    piece, how = text[at:end], rng.randrange(14)
    if how == 0:
        return text[:at] + bytes([rng.randrange(256)]) + text[at + 1:]
    if how == 1:
        return text[:at] + text[end:]
    if how == 2:
        return text[:at] + bytes([rng.choice(b' ;(){}[]:=+-*,.%0123456789abdpqxIFj\n')]) + text[at:]
    if how == 3:
        return text[:end] + piece + text[end:]
    if how == 4:
        to = rng.randrange(len(text) + 1)
        return text[:to] + piece + text[to:]
    if how == 5:
        return text[:at]
    if how == 6:
        return text[:at] + bytes(rng.choice(b'0123456789') for _ in range(rng.randrange(1, 45))) + text[at:]
    if how == 7:
        return text[:at] + rng.choice(NESTS) * rng.randrange(1, 300) + text[at:]
    if how == 8:
        return text[:at] + piece * rng.randrange(2, 400) + text[end:]
    digits = [k for k, byte in enumerate(text) if chr(byte).isdigit()]
    if not digits:
        return text
    at = rng.choice(digits)
    return text[:at] + bytes([rng.choice(b'0123456789')]) + text[at + 1:]
