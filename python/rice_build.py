"""What of rice.h the package calls, for cffi. A declaration that is not as the header has it does not compile."""
import os

from cffi import FFI

ROOT = os.path.join(os.path.dirname(os.path.abspath(__file__)), "..")
LIBRARY = os.path.join(ROOT, "librice.a")
HEADER = os.path.join(ROOT, "include", "rice.h")

ffi = FFI()
ffi.cdef("""
static char *const RICE_VERSION_TEXT;

struct rice_setting {
    uint32_t bits, block, interval;
    bool is_signed, msb, three, preprocess, pad, any_block;
};
struct rice_report {
    uint64_t samples, bits, steps, written, place;
};
struct rice_feed {
    uint64_t samples;
    uint32_t start;
    ...;
};
struct rice_drain {
    uint64_t samples, bits;
    ...;
};

uint32_t rice_check(const struct rice_setting *);
uint32_t rice_sample_width(const struct rice_setting *);
uint64_t rice_code_room(const struct rice_setting *, uint64_t);
uint32_t rice_encode(const struct rice_setting *, const uint8_t *, size_t, uint8_t *, size_t, struct rice_report *);
uint32_t rice_decode(const struct rice_setting *, uint64_t, const uint8_t *, size_t, uint8_t *, size_t, struct rice_report *);
uint32_t rice_decode_all(const struct rice_setting *, const uint8_t *, size_t, uint8_t *, size_t, struct rice_report *);

uint32_t rice_begin(const struct rice_setting *, struct rice_feed *);
uint64_t rice_push_room(const struct rice_feed *, uint64_t);
uint32_t rice_push(struct rice_feed *, const uint8_t *, size_t, uint8_t *, size_t, struct rice_report *);
uint32_t rice_finish(const struct rice_feed *, const uint8_t *, size_t, uint8_t *, size_t, struct rice_report *);

uint32_t rice_open_at(const struct rice_setting *, uint64_t, uint64_t, struct rice_drain *);
uint32_t rice_pull(struct rice_drain *, const uint8_t *, size_t, uint8_t *, size_t, struct rice_report *);
""")
# The library's names stay inside the extension, and nothing of it tells where it was built.
ffi.set_source(
    "rice121._rice",
    "#include <rice.h>",
    include_dirs=[os.path.dirname(HEADER)],
    extra_objects=[LIBRARY],
    depends=[LIBRARY, HEADER],
    extra_compile_args=["-std=c11", "-O2", "-g0"],
    extra_link_args=["-Wl,--exclude-libs,ALL", "-Wl,-z,now,-z,relro", "-s"],
)
