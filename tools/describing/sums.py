"""The checksums of bytes that a line `check` names, computed."""
from __future__ import annotations


def low_crc(polynomial: int, crc: int, data: bytes) -> int:
    """Returns a remainder after more bytes, the lowest bit of each byte first."""
    for byte in data:
        crc ^= byte
        for _ in range(8):
            crc = crc >> 1 ^ (polynomial if crc & 1 else 0)
    return crc


def high_crc(width: int, polynomial: int, crc: int, data: bytes) -> int:
    """Returns a remainder of `width` bits after more bytes, the highest bit of each byte first."""
    for byte in data:
        crc ^= byte << width - 8
        for _ in range(8):
            crc = crc << 1 ^ ((1 << width | polynomial) if crc >> width - 1 else 0)
    return crc


def sum16(data: bytes) -> int:
    """Returns the Internet checksum (RFC 1071)."""
    words = data + b"\0" * (len(data) % 2)
    total = sum(int.from_bytes(words[k : k + 2], "big") for k in range(0, len(words), 2))
    while total >> 16:
        total = (total & 0xFFFF) + (total >> 16)
    return 0xFFFF - total


def checksum(name: str, data: bytes) -> int:
    """Returns the checksum of bytes."""
    match name:
        case "crc32":
            return low_crc(0xEDB88320, 0xFFFFFFFF, data) ^ 0xFFFFFFFF
        case "crc32-mpeg":
            return high_crc(32, 0x04C11DB7, 0xFFFFFFFF, data)
        case "crc24-adsb":
            return high_crc(24, 0xFFF409, 0, data)
        case "crc16-ccitt":
            return high_crc(16, 0x1021, 0xFFFF, data)
        case "crc16-x25":
            return low_crc(0x8408, 0xFFFF, data) ^ 0xFFFF
        case "crc16-kermit":
            return low_crc(0x8408, 0, data)
        case "sum16-udp":
            return sum16(data) or 0xFFFF
    return sum16(data)
