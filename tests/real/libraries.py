"""The libraries that `run` and `census` take: their source packages, files and flags.

Sources lie in a folder, one folder a package, as `apt-get source` unpacks them (zlib-1.2.13.dfsg
and so on). `fetch` makes that folder.
"""
import os
import pathlib

HERE = pathlib.Path(__file__).resolve().parent
ROOT = HERE.parents[1]
DEFAULT = os.environ.get("REAL_SOURCES") or str(ROOT / ".built" / "real")
SECP = "-DECMULT_WINDOW_SIZE=15 -DECMULT_GEN_PREC_BITS=4 " + " ".join(
    f"-DENABLE_MODULE_{it}=1" for it in ("ECDH", "RECOVERY", "EXTRAKEYS", "SCHNORRSIG"))
MBEDTLS = """aes arc4 aria asn1parse asn1write base64 bignum blowfish camellia ccm chacha20
    chachapoly cipher cipher_wrap cmac constant_time ctr_drbg des ecp ecp_curves gcm hmac_drbg md
    md5 oid pkcs5 platform platform_util poly1305 ripemd160 rsa rsa_internal sha1 sha256 sha512
    xtea"""
SODIUM = """aead/chacha20poly1305/sodium/* auth/hmacsha256/* core/ed25519/ref10/* core/ed25519/*
    core/hchacha20/* core/hsalsa20/ref2/* core/hsalsa20/* core/salsa/ref/* generichash/blake2b/ref/*
    hash/sha256/cp/* hash/sha256/* hash/sha512/cp/* hash/sha512/* onetimeauth/poly1305/*
    onetimeauth/poly1305/donna/* scalarmult/curve25519/* scalarmult/curve25519/ref10/*
    shorthash/siphash24/ref/* shorthash/siphash24/* sign/ed25519/ref10/* sign/ed25519/*
    stream/chacha20/* stream/chacha20/ref/* stream/salsa20/* stream/salsa20/ref/*
    stream/xsalsa20/* verify/sodium/*"""
# The folder of the package in which the files are, the files, the flags, and further words:
# which files the census takes beside these, the input of the driver, and the package where it has
# another name.
ROWS = {
    "zlib": (".", "adler32 compress crc32 deflate infback inffast inflate inftrees trees uncompr "
             "zutil", "-I. -DZ_HAVE_UNISTD_H", {"census": "*"}),
    "bzip2": (".", "blocksort bzlib compress crctable decompress huffman randtable",
              "-I. -DBZ_NO_STDIO", {"census": "bzlib compress bzip2 bzip2recover"}),
    "libsecp256k1": (".", "src/secp256k1 src/precomputed_ecmult src/precomputed_ecmult_gen",
                     f"-I. -Iinclude -Isrc {SECP}", {"census": "src/*"}),
    "libsecp256k1-tests": (".", "src/precomputed_ecmult src/precomputed_ecmult_gen",
                           f"-I. -Iinclude -Isrc {SECP}", {"package": "libsecp256k1"}),
    "lz4": ("lib", "lz4 lz4hc xxhash", "-I. -fwrapv", {"census": "*"}),
    "xxhash": (".", "xxhash", "-I. -DXXH_VECTOR=0", {"census": "*"}),
    "brotli": ("c", "common/* dec/*", "-Iinclude -DBROTLI_BUILD_PORTABLE", {
        "census": "enc/*", "input": "tests/testdata/ukkonooa.compressed"}),
    "libdeflate": (".", "lib/*", "-I. -D__has_attribute(x)=0", {"census": "lib/x86/*"}),
    "mbedtls": ("library", MBEDTLS, f"-I../include -I. -DMBEDTLS_USER_CONFIG_FILE="
                f'"{HERE}/mbedtls_config.h"', {"census": "*"}),
    "libsodium": ("src/libsodium", " ".join(f"crypto_{it}" for it in SODIUM.split())
                  + " sodium/utils", "-Iinclude -Iinclude/sodium -DCONFIGURED "
                  "-DNATIVE_LITTLE_ENDIAN -DHAVE_TI_MODE", {
                      "census": "crypto_*/* crypto_*/*/* crypto_*/*/*/* randombytes/* sodium/*"}),
    "libzstd": ("lib", "", "-I. -Icommon -DZSTD_DISABLE_ASM -DDYNAMIC_BMI2=0 -DXXH_NAMESPACE=ZSTD_",
                {"census": "common/* compress/* decompress/* dictBuilder/*"}),
}


class Library:
    """A library: its name, its files with their folder, its flags, its driver and their input."""

    def __init__(self, name, sources):
        inside, files, flags, more = ROWS[name]
        package = more.get("package", name)
        found = sorted(path for path in pathlib.Path(sources).glob(f"{package}-[0-9]*")
                       if path.is_dir())
        self.name, self.package = name, found[0] if found else None
        self.flags, self.driver = flags.split(), HERE / f"{name}.c"
        if self.package is None:
            return
        self.folder = self.package / inside
        self.files = self.chosen(files)
        self.more = [path for path in self.chosen(more.get("census", ""))
                     if path not in self.files]
        self.input = (self.package / more["input"]).read_bytes() if "input" in more else b""

    def chosen(self, patterns):
        """The C files that patterns name, each once."""
        found = [path for pattern in patterns.split()
                 for path in sorted(self.folder.glob(f"{pattern}.c"))]
        return list(dict.fromkeys(str(path.relative_to(self.folder)) for path in found))


# The libraries that have a driver, in the order of the table.
DRIVEN = [name for name in ROWS if ROWS[name][1]]
# Those whose files the census counts: one row a package.
COUNTED = [name for name in ROWS if "package" not in ROWS[name][3]]
