"""Calls functions of the shared library through ctypes, and prints what they return.

usage: shared.py LIBRARY CERTIFICATE
"""
import ctypes
import sys

FIELDS_LENGTH, STORE_LENGTH, STORED_LENGTH, LIST_LENGTH = 360, 13568, 244, 64
KIND = 3  # the word of a certificate's kind


def function(library, name, result, *arguments):
    """A C function with its types. Without them ctypes takes every number for an int."""
    found = getattr(library, name)
    found.restype, found.argtypes = result, arguments
    return found


def main(path, certificate_path):
    library = ctypes.CDLL(path)
    octets, length = ctypes.c_char_p, ctypes.c_size_t
    read = function(library, "nattveldi_read", ctypes.c_uint8, octets, length, octets, length)
    stored = function(library, "nattveldi_stored", ctypes.c_uint8, octets, length, length, octets, length)
    standing = function(library, "nattveldi_standing", ctypes.c_int32, octets, length, ctypes.c_uint32, octets, length)
    with open(certificate_path, "rb") as file:
        certificate = file.read()

    fields = ctypes.create_string_buffer(FIELDS_LENGTH)
    print("read", read(certificate, len(certificate), fields, FIELDS_LENGTH))
    print("kind", int.from_bytes(fields.raw[4 * KIND : 4 * KIND + 4], "big"))
    print("read nothing", read(b"", 0, fields, FIELDS_LENGTH))
    print("read to a short buffer", read(certificate, len(certificate), fields, FIELDS_LENGTH - 1))

    store, slots = bytes(STORE_LENGTH), ctypes.create_string_buffer(LIST_LENGTH)
    print("standing", standing(store, STORE_LENGTH, 694700000, slots, LIST_LENGTH))
    print("standing in a short store", standing(store, STORE_LENGTH - 1, 694700000, slots, LIST_LENGTH))
    row = ctypes.create_string_buffer(STORED_LENGTH)
    print("stored", stored(store, STORE_LENGTH, 0, row, STORED_LENGTH))


main(*sys.argv[1:])
