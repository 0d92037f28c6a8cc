"""Prints rows of a module after deltas, by their tokens, and how many rows each table has.

Usage: rows.py LIBENC.so BASE.dll DELTA.. -- TOKEN..; each delta by its files' name without .meta and .il. Without tokens the counts are told."""
import ctypes
import sys

DONE, REFUSED, SHORT, ABSENT = 0, 1, 9, 10
u8p, u32, size_t = ctypes.c_char_p, ctypes.c_uint32, ctypes.c_size_t


class Refusal(ctypes.Structure):
    _fields_ = [(n, ctypes.c_uint8) for n in ("letter", "rule", "place", "stream", "table", "column")] + [("row", u32), ("entry", u32)]


class Refused(Exception):
    pass


class Module:
    """A base, and the deltas that follow it."""

    def __init__(self, library, base, pdb=b""):
        self.enc = ctypes.CDLL(library)
        self.handle = ctypes.c_void_p()
        refusal = Refusal()
        self.check(self.enc.enc_open(self.at(), base, size_t(len(base)), pdb, size_t(len(pdb)), ctypes.byref(refusal)), refusal)

    def at(self):
        return ctypes.byref(self.handle)

    def check(self, status, refusal):
        if status == REFUSED:
            raise Refused(self.copied(lambda *buffer: self.enc.enc_words(ctypes.byref(refusal), *buffer)).decode())
        if status != DONE:
            raise OSError(status)

    def copied(self, call):
        """What a call copies: how much it is, and then the bytes; None where there is nothing."""
        size = size_t()
        status = call(None, size_t(0), ctypes.byref(size))
        if status == SHORT:
            buffer = ctypes.create_string_buffer(size.value)
            status = call(buffer, size, ctypes.byref(size))
            return buffer.raw if status == DONE else None
        return b"" if status == DONE else None

    def apply(self, metadata, il, pdb=b""):
        refusal = Refusal()
        parts = [p for b in (metadata, il, pdb) for p in (b, size_t(len(b)))]
        self.check(self.enc.enc_apply(self.at(), *parts, ctypes.byref(refusal)), refusal)

    def count(self, table):
        count = u32()
        self.check(self.enc.enc_count(self.at(), ctypes.c_uint8(table), ctypes.byref(count)), None)
        return count.value

    def row(self, token):
        return self.copied(lambda *buffer: self.enc.enc_row(self.at(), u32(token), *buffer))

    def close(self):
        return self.enc.enc_close(self.at())


def read(name):
    with open(name, "rb") as file:
        return file.read()


def main(library, base, *words):
    deltas, tokens = (words[: words.index("--")], words[words.index("--") + 1 :]) if "--" in words else (words, ())
    try:
        module = Module(library, read(base))
        for delta in deltas:
            module.apply(read(delta + ".meta"), read(delta + ".il"))
    except Refused as refused:
        print("refused", str(refused), end="")
        return 1
    for token in tokens:
        text = module.row(int(token, 16))
        sys.stdout.buffer.write(text if text is not None else b"absent " + token.encode() + b"\n")
    for table in range(0x40 if not tokens else 0):
        if module.count(table):
            print("%02x %d" % (table, module.count(table)))
    module.close()
    return 0


if __name__ == "__main__":
    sys.exit(main(*sys.argv[1:]))
