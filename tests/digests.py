"""How the programs print many words shortly; crates/history_play/src/lib.rt says the same."""
MODULUS, FACTOR = 4_294_967_291, 16_777_619


def digest(words):
    """The count and the rolling sum."""
    total = 0
    for word in words:
        total = (FACTOR * total + word) % MODULUS
    return len(words), total
