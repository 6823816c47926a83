typedef uint32_t u32;
typedef uint64_t u64;

#if defined(__GNUC__) || defined(__clang__)
#define stop() __builtin_trap()
#else
#define stop() abort()
#endif
#if defined(__clang__)
/* A module need not have each instruction. */
#pragma clang diagnostic ignored "-Wunused-function"
#elif defined(_MSC_VER)
/* A minus before a number without a sign, and labels that nothing jumps to. */
#pragma warning(disable : 4102 4146)
#endif

/* An address of the module is that of its constant data if it is small, and else a pointer of this machine with BIAS added.
 * So a buffer is read where it stands. */
#define BIAS (UINT64_C(1) << 62)

static inline u64 address(const void *pointer) { return pointer ? (u64)(uintptr_t)pointer + BIAS : 0; }
static inline unsigned char *target(u64 at) { return (unsigned char *)(uintptr_t)(at - BIAS); }
static inline const unsigned char *source(u64 at) { return at - LOW < SIZE ? data + (at - LOW) : target(at); }

/* The module has the low byte first. Other machines read and write byte by byte. */
#if defined(_MSC_VER) || (defined(__BYTE_ORDER__) && __BYTE_ORDER__ == __ORDER_LITTLE_ENDIAN__)
static inline uint16_t read16(const unsigned char *from) { uint16_t value; memcpy(&value, from, sizeof value); return value; }
static inline u32 read32(const unsigned char *from) { u32 value; memcpy(&value, from, sizeof value); return value; }
static inline u64 read64(const unsigned char *from) { u64 value; memcpy(&value, from, sizeof value); return value; }
static inline void write16(unsigned char *to, uint16_t value) { memcpy(to, &value, sizeof value); }
static inline void write32(unsigned char *to, u32 value) { memcpy(to, &value, sizeof value); }
static inline void write64(unsigned char *to, u64 value) { memcpy(to, &value, sizeof value); }
#else
static inline uint16_t read16(const unsigned char *from) { return (uint16_t)(from[0] | from[1] << 8); }
static inline u32 read32(const unsigned char *from) { return read16(from) | (u32)read16(from + 2) << 16; }
static inline u64 read64(const unsigned char *from) { return read32(from) | (u64)read32(from + 4) << 32; }
static inline void write16(unsigned char *to, uint16_t value) { to[0] = (unsigned char)value; to[1] = (unsigned char)(value >> 8); }
static inline void write32(unsigned char *to, u32 value) { write16(to, (uint16_t)value); write16(to + 2, (uint16_t)(value >> 16)); }
static inline void write64(unsigned char *to, u64 value) { write32(to, (u32)value); write32(to + 4, (u32)(value >> 32)); }
#endif

static inline uint8_t load8(u64 at) { return *source(at); }
static inline uint16_t load16(u64 at) { return read16(source(at)); }
static inline u32 load32(u64 at) { return read32(source(at)); }
static inline u64 load64(u64 at) { return read64(source(at)); }
/* What stands in the frame of a function is never constant data, nor is what is written. */
static inline uint8_t frame8(u64 at) { return *target(at); }
static inline uint16_t frame16(u64 at) { return read16(target(at)); }
static inline u32 frame32(u64 at) { return read32(target(at)); }
static inline u64 frame64(u64 at) { return read64(target(at)); }
static inline void store8(u64 at, uint8_t value) { *target(at) = value; }
static inline void store16(u64 at, uint16_t value) { write16(target(at), value); }
static inline void store32(u64 at, u32 value) { write32(target(at), value); }
static inline void store64(u64 at, u64 value) { write64(target(at), value); }
/* Whether the byte is one of so many, all of which may be read. A byte of a word is zero where it is found. */
static inline u32 has_byte(u64 at, size_t size, u32 byte) {
    const u64 ones = UINT64_C(0x0101010101010101), all = ones * byte;
    const unsigned char *from = source(at);
    u64 found = 0, word;
    for (; size >= sizeof word; size -= sizeof word, from += sizeof word) {
        memcpy(&word, from, sizeof word);
        word ^= all;
        found |= (word - ones) & ~word;
    }
    for (; size > 0; size--, from++)
        if (*from == byte) found = ones << 7;
    return (found & ones << 7) != 0;
}
/* The least of another byte and of so many, each less a number. By vectors of bytes with a sign, which most processors compare: the
 * last is looked at first, and has some bytes that another one has too. */
static inline u32 least_byte(u64 at, size_t size, uint8_t less, u32 least) {
    const unsigned char *from = source(at), *const end = from + size;
#if defined(__GNUC__) && !defined(__TINYC__)
    typedef uint8_t bytes __attribute__((vector_size(16)));
    typedef int8_t with_sign __attribute__((vector_size(16)));
    if (size >= sizeof(bytes)) {
        const bytes by = (bytes){0} + (uint8_t)(less + 128);
        bytes some;
        memcpy(&some, end - sizeof some, sizeof some);
        with_sign all = (with_sign)(some - by);
        for (; from <= end - sizeof some; from += sizeof some) {
            memcpy(&some, from, sizeof some);
            const with_sign told = (with_sign)(some - by);
            all ^= (all ^ told) & (told < all);
        }
        for (size_t lane = 0; lane < sizeof all; lane++)
            least = (u32)(all[lane] + 128) < least ? (u32)(all[lane] + 128) : least;
        return least;
    }
#endif
    for (; from < end; from++) {
        const uint8_t it = (uint8_t)(*from - less);
        least = it < least ? it : least;
    }
    return least;
}
static inline void copy(u64 to, u64 from, u64 size) { if (size) memmove(target(to), source(from), (size_t)size); }
static inline void fill(u64 to, u32 value, u64 size) { if (size) memset(target(to), (int)(value & 0xFF), (size_t)size); }

static inline u32 rotl32(u32 value, u32 by) { return value << (by & 31) | value >> (-by & 31); }
static inline u64 rotl64(u64 value, u64 by) { return value << (by & 63) | value >> (-by & 63); }
static inline u32 rotr32(u32 value, u32 by) { return value >> (by & 31) | value << (-by & 31); }
static inline u64 rotr64(u64 value, u64 by) { return value >> (by & 63) | value << (-by & 63); }
static inline u32 div_u32(u32 value, u32 by) { if (!by) stop(); return value / by; }
static inline u64 div_u64(u64 value, u64 by) { if (!by) stop(); return value / by; }
static inline u32 rem_u32(u32 value, u32 by) { if (!by) stop(); return value % by; }
static inline u64 rem_u64(u64 value, u64 by) { if (!by) stop(); return value % by; }
static inline u32 div_s32(u32 value, u32 by) {
    if (!by || (value == UINT32_C(1) << 31 && by == UINT32_MAX)) stop();
    return (u32)((int32_t)value / (int32_t)by);
}
static inline u64 div_s64(u64 value, u64 by) {
    if (!by || (value == UINT64_C(1) << 63 && by == UINT64_MAX)) stop();
    return (u64)((int64_t)value / (int64_t)by);
}
static inline u32 rem_s32(u32 value, u32 by) {
    if (!by) stop();
    return by == UINT32_MAX ? 0 : (u32)((int32_t)value % (int32_t)by);
}
static inline u64 rem_s64(u64 value, u64 by) {
    if (!by) stop();
    return by == UINT64_MAX ? 0 : (u64)((int64_t)value % (int64_t)by);
}
static inline u64 popcnt64(u64 value) {
    value = value - (value >> 1 & UINT64_C(0x5555555555555555));
    value = (value & UINT64_C(0x3333333333333333)) + (value >> 2 & UINT64_C(0x3333333333333333));
    return ((value + (value >> 4)) & UINT64_C(0x0F0F0F0F0F0F0F0F)) * UINT64_C(0x0101010101010101) >> 56;
}
static inline u32 popcnt32(u32 value) { return (u32)popcnt64(value); }
#if defined(__GNUC__) || defined(__clang__)
static inline u64 clz64(u64 value) { return value ? (u64)__builtin_clzll(value) : 64; }
static inline u64 ctz64(u64 value) { return value ? (u64)__builtin_ctzll(value) : 64; }
#else
static inline u64 clz64(u64 value) {
    for (int by = 1; by < 64; by *= 2) value |= value >> by;
    return 64 - popcnt64(value);
}
static inline u64 ctz64(u64 value) { return popcnt64(~value & (value - 1)); }
#endif
static inline u32 clz32(u32 value) { return (u32)clz64(value) - 32; }
static inline u32 ctz32(u32 value) { return value ? (u32)ctz64(value) : 32; }
