"""Words for random cases: usual ones, those at a limit, and wrong ones."""

from configuration import LIMIT
from tables import PREFIX

LEAF_NAMES = [b"D", b"A", b"B", b"H", b"d", b"/dev/sda1", b"8:1", b"a", b"low", b"n" * 255]
NAMES = [b"a", b"b", b"c", b"d", b"low", b"mid", b"top", b"D", b"x", b"N" * 127]
STRANGE_NAMES = [
    b"n" * 127, b"n" * 128, b"n" * 255, b"n" * 256, b"a/b", PREFIX, PREFIX + b"a/b", PREFIX + b"nn",
    PREFIX + b"n" * 127, PREFIX + b"n" * 128, b"/dev/mapper", b"/dev/mapperx", b"#", b"-", b"a=b:c", b"~",
    b"A", b"!", b"none", b"d\"'", b"/",
]
STRANGE_NUMBERS = [
    b"0", b"1", b"00", b"007", b"2", b"3", b"16", b"17", b"016", b"127", b"128", b"129", b"255",
    b"256", b"257", b"512", b"1024", b"2048", b"2049", b"2050", b"4096", b"8192", b"513", b"65536",
    b"65537", b"4294967296", b"%d" % (LIMIT - 1), b"%d" % LIMIT, b"%d" % (LIMIT + 1),
    b"%d" % (2**63), b"%d" % (2**64 - 1), b"%d" % 2**64, b"%d" % (2**64 + 1), b"0" * 30 + b"5",
    b"1" * 30, b"9" * 20, b"+1", b"-1", b"0x1", b"1.0", b"1e3", b"1_0", b"x", b"-",
]
STRANGE_BYTES = [b"\x00", b"\x0b", b"\x0c", b"\x7f", b"\x80", b"\xff", b"\\", b"\x01", b"\xc2\xa0"]
TARGET_WORDS = [
    b"linear", b"striped", b"zero", b"error", b"crypt", b"verity", b"unstriped", b"Linear", b"mirror", b"zer",
    b"zeros", b"linear1",
]
OPTION_WORDS = [
    b"allow_discards", b"same_cpu_crypt", b"submit_from_crypt_cpus", b"no_read_workqueue",
    b"no_write_workqueue", b"sector_size:512", b"sector_size:1024", b"sector_size:2048",
    b"sector_size:4096", b"sector_size:8192", b"sector_size:0512", b"iv_large_sectors",
    b"ignore_zero_blocks", b"check_at_most_once", b"high_priority", b"Allow_discards", b"restart_on_corruption",
    b"panic_on_corruption", b"ignore_corruption", b"try_verify_in_tasklet", b"use_fec_from_device", b"fec_roots", b"fec_blocks",
    b"fec_start", b"root_hash_sig_key_desc",
]
UUIDS = [
    b"00000000-0000-0000-0000-000000000000", b"6c0b2c0e-5a0d-4b5c-9a44-1d1f6a3b2c7e",
    b"6C0B2C0E5A0D4B5C9A441D1F6A3B2C7E", b"{6c0b2c0e-5a0d-4b5c-9a44-1d1f6a3b2c7e}",
    b"urn:uuid:6c0b2c0e-5a0d-4b5c-9a44-1d1f6a3b2c7e", b"ffffffff-FFFF-ffff-ffff-ffffffffffff",
]
SIZES = (512, 1024, 2048, 4096)
