"""Images from Python, by ctypes over liblhf.so: `Image(open(path, "rb").read())[b"Ada"]`.

    LHF_DIR=FOLDER python3 examples/python/lhf.py FILE [KEY..]
"""

import ctypes as c
import os
import sys

lib = c.CDLL(os.path.join(os.environ["LHF_DIR"], "liblhf.so"))
OK, ABSENT = 0, 17


class Slice(c.Structure):
    _fields_ = [("at", c.c_void_p), ("len", c.c_size_t)]

    def bytes(self):
        return c.string_at(self.at, self.len)


class Handle(c.Structure):
    _fields_ = [("bytes", Slice), ("index", Slice), ("records", c.c_uint64)] + [
        (name, c.c_uint32) for name in "version initial capacity load max buckets pages at".split()
    ]


class Image:
    """An image that was checked: a mapping of bytes to bytes that can't be changed."""

    def __init__(self, data):
        self.data, self.own = data, Handle()
        # No slice of the handle may be null.
        self.own.bytes.at = self.own.index.at = c.cast(c.c_char_p(data), c.c_void_p).value
        self.must(lib.lhf_open(c.byref(self.own), data, c.c_size_t(len(data))))
        self.index = (c.c_uint64 * (4 * self.own.pages))()
        self.must(lib.lhf_check(c.byref(self.own), self.index, c.c_size_t(self.own.pages)))

    def must(self, code):
        if code != OK:
            text = self.none()
            lib.lhf_text(c.c_uint32(code), c.byref(text))
            raise ValueError(f"image I{code} at {self.own.at}: {text.bytes().decode()}")

    def none(self):
        return Slice(self.own.bytes.at, 0)

    def get(self, key, default=None):
        value = self.none()
        found = lib.lhf_find(c.byref(self.own), key, c.c_size_t(len(key)), c.byref(value))
        return value.bytes() if found == OK else default

    def __getitem__(self, key):
        value = self.get(key)
        if value is None:
            raise KeyError(key)
        return value

    def __len__(self):
        return self.own.records

    def items(self):
        place, key, value = c.c_uint64(0), self.none(), self.none()
        while lib.lhf_next(c.byref(self.own), c.byref(place), c.byref(key), c.byref(value)) == OK:
            yield key.bytes(), value.bytes()


if __name__ == "__main__":
    with open(sys.argv[1], "rb") as file:
        image = Image(file.read())
    for word in sys.argv[2:]:
        print(word, image.get(word.encode(), b"is absent").decode())
    if len(sys.argv) == 2:
        for its_key, its_value in image.items():
            print(its_key.decode(), its_value.decode())
