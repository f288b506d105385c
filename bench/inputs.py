#!/usr/bin/env python3
"""Inputs for measuring the program. `python3 inputs.py N` writes that of case N."""

import sys

DOCUMENT = (
    '{{"zarr_format":3,"node_type":"array","shape":{shape},"data_type":"{data_type}",'
    '"chunk_grid":{{"name":"regular","configuration":{{"chunk_shape":{chunks}}}}},'
    '"chunk_key_encoding":"default","fill_value":0,'
    '"codecs":[{{"name":"bytes","configuration":{{"endian":"{endian}"}}}}]}}\n'
)


def document(shape, chunks, data_type="uint8", endian="little"):
    return DOCUMENT.format(shape=list(shape), chunks=list(chunks), data_type=data_type, endian=endian)


def bounded(text, lengths):
    """The same input over a grid of boundaries with these lengths in each dimension."""
    start = text.index('"chunk_grid"')
    end = text.index('"chunk_key_encoding"')
    rows = ",".join("[" + ",".join(map(str, row)) + "]" for row in lengths)
    grid = f'"chunk_grid":{{"name":"zarr_basics.boundaries","configuration":{{"lengths":[{rows}]}}}},'
    return text[:start] + grid + text[end:]


def key_lines(counts, size):
    """A value of `size` bytes for each chunk of a grid of these counts."""
    value = "".join(f"{n % 251 + 1:02x}" for n in range(size))
    return "".join(
        f"key c/{i}/{j} h{value}\n" for i in range(counts[0]) for j in range(counts[1])
    )


def box(shape):
    return ",".join(f"0..{n}" for n in shape)


def one_read():
    """64 chunks of 16 KiB, and one read over 49 of them."""
    return (
        document((1024, 1024), (128, 128))
        + key_lines((8, 8), 128 * 128)
        + "read 300..900,100..900\n"
    )


def small_reads(number):
    """The same chunks, and so many reads of 2 by 2."""
    reads = (
        f"read {i % 1021}..{i % 1021 + 2},{i * 7 % 1021}..{i * 7 % 1021 + 2}\n"
        for i in range(number)
    )
    return document((1024, 1024), (128, 128)) + key_lines((8, 8), 128 * 128) + "".join(reads)


def write_and_read(shape, chunks, size=1, data_type="uint8", endian="little"):
    """One write of a whole array of elements of `size` bytes, and one read of it."""
    count = shape[0] * shape[1]
    digits = [f"{n % 251 + 1:02x}" for n in range(count * size)]
    elements = "".join(" h" + "".join(digits[k * size : k * size + size]) for k in range(count))
    return (
        document(shape, chunks, data_type, endian)
        + f"write {box(shape)}{elements}\n"
        + f"read {box(shape)}\n"
    )


def texts(shape, chunks, size):
    """One write of a whole array of texts of `size` bytes, and one read of it."""
    count = shape[0] * shape[1]
    digits = [f"{n % 95 + 32:02x}" for n in range(count * size)]
    elements = "".join(" h" + "".join(digits[k * size : k * size + size]) for k in range(count))
    opened = document(shape, chunks, "string").replace('"fill_value":0', '"fill_value":""')
    codec = opened.index('"codecs"')
    return (
        opened[:codec]
        + '"codecs":["vlen-utf8"]}\n'
        + f"write {box(shape)}{elements}\n"
        + f"read {box(shape)}\n"
    )


def single_reads(chunks, reads):
    """Reads of one element each out of a dimension of as many chunks, of lengths 3 and 1 in turn."""
    lengths = [3 if n % 2 == 0 else 1 for n in range(chunks)]
    total = sum(lengths)
    places = ((n * 7919 + 13) % total for n in range(reads))
    return bounded(document((total,), (1,)), [lengths]) + "".join(f"read {at}..{at + 1}\n" for at in places)


def held(chunks, size, by_reference, reads=1):
    """So many chunks of a line, each under its own key or a slice of one value, and reads of all of them."""
    total = chunks * size
    digits = [f"{n % 251 + 1:02x}" for n in range(total)]
    if by_reference:
        keys = "key blob h" + "".join(digits) + "\n"
        keys += "".join(f"ref c/{n} blob {n * size} {size}\n" for n in range(chunks))
    else:
        keys = "".join(f"key c/{n} h" + "".join(digits[n * size : n * size + size]) + "\n" for n in range(chunks))
    return document((total,), (size,)) + keys + f"read 0..{total}\n" * reads


def as_version_2(text):
    """The same input with the document of version 2 in its first line, and its keys of version 2."""
    start, end = text.index('"chunk_shape":') + len('"chunk_shape":'), text.index("}}", text.index('"chunk_shape":'))
    chunks, shape = text[start:end], text[text.index('"shape":') + len('"shape":') : text.index(',"data_type"')]
    return (
        f'{{"zarr_format":2,"shape":{shape},"chunks":{chunks},"dtype":"|u1","compressor":null,"fill_value":0,'
        '"order":"C","filters":null}\n' + text[text.index("\n") + 1 :]
    )


def moved(shape, chunks, other):
    """All chunks of an array, which is moved into chunks of another shape."""
    counts = [n // k for n, k in zip(shape, chunks)]
    return document(shape, chunks) + document(shape, other) + key_lines(counts, chunks[0] * chunks[1])


CRC_TABLE = []
for byte in range(256):
    register = byte
    for _ in range(8):
        register = register >> 1 ^ (0x82F63B78 if register & 1 else 0)
    CRC_TABLE.append(register)


def crc32c(value):
    register = 0xFFFFFFFF
    for byte in value:
        register = register >> 8 ^ CRC_TABLE[(register ^ byte) & 255]
    return register ^ 0xFFFFFFFF


def sharded(side, inner, reads, checked=False):
    """An array that is one shard of a square of `side` by `side` inner chunks, each a square of `inner` by `inner`."""
    length = side * inner
    index_codecs = '{"name":"bytes","configuration":{"endian":"little"}}' + (',"crc32c"' if checked else "")
    opened = document((length, length), (length, length))
    codec = opened.index('"codecs"')
    size = inner * inner
    index = b"".join((n * size).to_bytes(8, "little") + size.to_bytes(8, "little") for n in range(side * side))
    if checked:
        index += crc32c(index).to_bytes(4, "little")
    values = bytes(n % 251 + 1 for n in range(length * length))
    return (
        opened[:codec]
        + f'"codecs":[{{"name":"sharding_indexed","configuration":{{"chunk_shape":[{inner},{inner}],'
        + f'"codecs":["bytes"],"index_codecs":[{index_codecs}]}}}}]}}\n'
        + f"key c/0/0 h{values.hex()}{index.hex()}\n"
        + "".join(reads)
    )


def inner_reads(side, inner, number):
    """So many reads, each of one inner chunk."""
    for n in range(number):
        row, column = n % side * inner, n * 7 % side * inner
        yield f"read {row}..{row + inner},{column}..{column + inner}\n"


def unsharded(side, inner, reads):
    """The same array without inner chunks."""
    length = side * inner
    values = bytes(n % 251 + 1 for n in range(length * length))
    return document((length, length), (length, length)) + f"key c/0/0 h{values.hex()}\n" + "".join(reads)


def cases():
    """Each case: its group, its name, a function that makes its input, and the program where it is not `zarr`."""
    yield "read", "one read of 600 x 800 from 64 chunks of 128 x 128", one_read
    for number in (0, 1_000, 10_000):
        yield "read", f"{number:,} reads of 2 x 2 from the same", lambda number=number: small_reads(number)
    for scale in (1, 2, 4, 8):
        shape = (1024 * scale, 1024)
        yield (
            "elements",
            f"write and read {shape[0]} x {shape[1]} in chunks of 128 x 128",
            lambda shape=shape: write_and_read(shape, (128, 128)),
        )
    for shape in ((500, 500), (1000, 500), (1000, 1000), (2000, 1000)):
        chunks = shape[0] * shape[1] // 100
        yield (
            "chunks",
            f"write and read {shape[0]} x {shape[1]} in {chunks:,} chunks of 10 x 10",
            lambda shape=shape: write_and_read(shape, (10, 10)),
        )
    for data_type, size, endian in (
        ("int16", 2, "little"),
        ("int16", 2, "big"),
        ("int32", 4, "little"),
        ("int64", 8, "little"),
    ):
        shape = (1024, 1024 // size)
        yield (
            "types",
            f"write and read {shape[0]} x {shape[1]} of {data_type}, {endian}, in chunks of 128 x {128 // size}",
            lambda shape=shape, size=size, data_type=data_type, endian=endian: write_and_read(
                shape, (128, 128 // size), size, data_type, endian
            ),
        )
    for scale in (1, 2, 4):
        shape = (256 * scale, 256)
        yield (
            "texts",
            f"write and read {shape[0]} x {shape[1]} texts of 16 bytes in chunks of 32 x 32",
            lambda shape=shape: texts(shape, (32, 32), 16),
        )
    for chunks in (1_000, 1_000_000):
        for reads in (0, 10_000):
            yield (
                "boundaries",
                f"{reads:,} reads of one element out of {chunks:,} chunks of a grid of boundaries",
                lambda chunks=chunks, reads=reads: single_reads(chunks, reads),
            )
    yield (
        "boundaries of one shape",
        "write and read 1000 x 1000 in 10,000 chunks of 10 x 10 of a grid of boundaries",
        lambda: bounded(write_and_read((1000, 1000), (10, 10)), [[10] * 100, [10] * 100]),
    )
    for chunks in (20_000, 40_000):
        for reads in (0, 1):
            read = "read" if reads else "no read"
            yield (
                "slices",
                f"{read} of {chunks:,} chunks of 16 bytes under their own keys",
                lambda chunks=chunks, reads=reads: held(chunks, 16, False, reads),
            )
            yield (
                "slices",
                f"{read} of {chunks:,} chunks of 16 bytes, slices of one value",
                lambda chunks=chunks, reads=reads: held(chunks, 16, True, reads),
                "refs",
            )
    yield (
        "version 2",
        "write and read 1024 x 1024 in chunks of 128 x 128 of version 2",
        lambda: as_version_2(write_and_read((1024, 1024), (128, 128))),
        "v2",
    )
    for scale in (1, 2):
        shape = (1000 * scale, 1000)
        yield (
            "moves",
            f"{shape[0]} x {shape[1]} moved from chunks of 100 x 10 into chunks of 10 x 100",
            lambda shape=shape: moved(shape, (100, 10), (10, 100)),
            "rechunk",
        )
        yield (
            "moves",
            f"read of {shape[0]} x {shape[1]} in chunks of 100 x 10",
            lambda shape=shape: document(shape, (100, 10)) + key_lines((shape[0] // 100, 100), 1000) + f"read {box(shape)}\n",
        )
        yield (
            "moves",
            f"write of {shape[0]} x {shape[1]} in chunks of 10 x 100",
            lambda shape=shape: write_and_read(shape, (10, 100)).rsplit("read", 1)[0],
        )
    for checked in (False, True):
        index = "an index with a CRC-32C" if checked else "an index"
        for number in (0, 1_000, 2_000):
            yield (
                "inner chunks",
                f"{number:,} reads of an inner chunk of 64 x 64 of 4 x 4, by {index}",
                lambda number=number, checked=checked: sharded(64, 4, inner_reads(64, 4, number), checked),
                "shard",
            )
    for side, inner in ((16, 64), (64, 16)):
        length = side * inner
        for number in (0, 1):
            read = "read" if number else "no read"
            reads = [f"read {box((length, length))}\n"] * number
            yield (
                "shards",
                f"{read} of {length} x {length} in one shard of {side} x {side} inner chunks of {inner} x {inner}",
                lambda side=side, inner=inner, reads=reads: sharded(side, inner, reads),
                "shard",
            )
            yield (
                "shards",
                f"{read} of {length} x {length} in one chunk, without the {side} x {side} inner ones",
                lambda side=side, inner=inner, reads=reads: unsharded(side, inner, reads),
            )
            yield (
                "shards",
                f"{read} of {length} x {length} in {side} x {side} chunks, each under its own key",
                lambda side=side, inner=inner, length=length, reads=reads: document((length, length), (inner, inner))
                + key_lines((side, side), inner * inner)
                + "".join(reads),
            )


if __name__ == "__main__":
    sys.stdout.write(list(cases())[int(sys.argv[1])][2]())
