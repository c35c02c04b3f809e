"""AES-XTS by OpenSSL's libcrypto, one unit after the other: for values that are not this project's own."""
import ctypes
import ctypes.util

LIBRARY = ctypes.CDLL(ctypes.util.find_library("crypto") or "libcrypto.so.3")
for function in ("EVP_CIPHER_CTX_new", "EVP_aes_128_xts", "EVP_aes_256_xts"):
    getattr(LIBRARY, function).restype = ctypes.c_void_p


def unit(key, number, data, encrypt=True):
    """One unit, whose number is 16 little-endian bytes, under a key of 32 or 64 bytes."""
    cipher = LIBRARY.EVP_aes_256_xts() if len(key) == 64 else LIBRARY.EVP_aes_128_xts()
    context = ctypes.c_void_p(LIBRARY.EVP_CIPHER_CTX_new())
    out, length = ctypes.create_string_buffer(len(data)), ctypes.c_int()
    kind = ctypes.c_int(1 if encrypt else 0)
    done = LIBRARY.EVP_CipherInit_ex(context, ctypes.c_void_p(cipher), None, key, number.to_bytes(16, "little"), kind)
    done = done and LIBRARY.EVP_CipherUpdate(context, out, ctypes.byref(length), data, ctypes.c_int(len(data)))
    LIBRARY.EVP_CIPHER_CTX_free(context)
    if not done or length.value != len(data):
        raise RuntimeError("OpenSSL refused the unit (it takes no key of two equal halves)")
    return out.raw


def sectors(key, first, data, encrypt=True):
    """Sectors of 512 bytes, each a unit; the numbers count up from the first modulo 2^64."""
    return b"".join(
        unit(key, (first + k) % 2**64, data[512 * k : 512 * (k + 1)], encrypt) for k in range(len(data) // 512)
    )
