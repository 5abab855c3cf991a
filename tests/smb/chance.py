"""Bytes by chance."""


def some_bytes(chance, count):
    return chance.getrandbits(8 * count).to_bytes(count, 'little')
