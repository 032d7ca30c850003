"""The stored form of a token list, old and packed."""

from .faults import BrokenForm, FormulaError
from .numbers import JOINTS_TAG, KINDS_TAG, LENGTH_LIMIT, PACKED_TAG


def encode(tokens, packed=False):
    """The stored form of a token list; packed, with eight joints to a byte."""
    if len(tokens) > LENGTH_LIMIT:
        raise FormulaError(
            f'{len(tokens)} tokens, a stored form holds {LENGTH_LIMIT}')
    kinds = bytes(token.kind for token in tokens)
    joints = bytes(token.joint for token in tokens)
    if packed:
        return _section(KINDS_TAG, kinds) + _section(PACKED_TAG, pack(joints))
    return _section(KINDS_TAG, kinds) + _section(JOINTS_TAG, joints)


def _section(tag, payload):
    return bytes([tag]) + len(payload).to_bytes(2, 'little') + payload


def pack(joints):
    """Eight joints to a byte, the first in the lowest bit, unused bits 0."""
    packed = bytearray((len(joints) + 7) // 8)
    for index, joint in enumerate(joints):
        packed[index // 8] |= joint << index % 8
    return bytes(packed)


def decode(stored):
    """The two lists of an old stored form, kinds and joints.

    The bytes are free and the lengths may differ: those are refusals of the
    reader, not faults of the form.
    """
    kinds, end = _decode_list(stored, 0, KINDS_TAG)
    joints, end = _decode_list(stored, end, JOINTS_TAG)
    if end < len(stored):
        raise BrokenForm(end)
    return kinds, joints


def _decode_list(stored, start, tag):
    if start < len(stored) and stored[start] != tag:
        raise BrokenForm(start)
    payload = start + 3
    length = int.from_bytes(stored[start + 1:payload], 'little')
    if payload + length > len(stored):
        raise BrokenForm(len(stored))
    return list(stored[payload:payload + length]), payload + length
