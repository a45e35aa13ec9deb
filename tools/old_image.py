"""An image of format 1, for the tools that try `opfs migrate`."""


def old_image(path):
    """An image of format 1 with a file of 5,000 bytes, by docs/FORMATS.md."""
    unit = b"https://a.example"
    named = len(unit).to_bytes(2, "little") + unit
    file = named + b"\x01\x04note" + (7).to_bytes(8, "little")
    content = file + (5000).to_bytes(8, "little") + (1).to_bytes(4, "little") + (0).to_bytes(4, "little") + (2).to_bytes(4, "little")
    body = b"\x00" + b"\x01" + named + b"\x03" + file + b"\x05" + content
    area = (b"\xa5" + len(body).to_bytes(4, "little") + body).ljust(4 * 4096, b"\x00")
    numbers = [1, 4, 16, 8]
    superblock = (b"OPFSIMG1" + b"".join(it.to_bytes(4, "little") for it in numbers)).ljust(4096, b"\x00")
    with open(path, "wb") as out:
        out.write(superblock + area + bytes(4 * 4096) + (b"old " * 1250).ljust(16 * 4096, b"\x00"))
