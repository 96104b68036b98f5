/* Numbers as bytes, the most significant first, as in crates/px_bytes. */
#include <stdint.h>

static inline void spell_u32(uint8_t *to, uint32_t n)
{
    for (int i = 0; i < 4; i++)
        to[i] = (uint8_t)(n >> (24 - 8 * i));
}

static inline void spell_u64(uint8_t *to, uint64_t n)
{
    spell_u32(to, (uint32_t)(n >> 32));
    spell_u32(to + 4, (uint32_t)n);
}

static inline uint32_t read_u16(const uint8_t *at)
{
    return (uint32_t)at[0] << 8 | at[1];
}

static inline uint32_t read_u32(const uint8_t *at)
{
    return (uint32_t)at[0] << 24 | (uint32_t)at[1] << 16 | (uint32_t)at[2] << 8 | at[3];
}

static inline uint64_t read_u64(const uint8_t *at)
{
    return (uint64_t)read_u32(at) << 32 | read_u32(at + 4);
}
