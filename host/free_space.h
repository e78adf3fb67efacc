/* The three functions of libcapi.a. `rt lib` in crates/capi writes the archive to crates/capi/out/. */
#ifndef FREE_SPACE_H
#define FREE_SPACE_H

#include <stddef.h>
#include <stdint.h>

/* The lookup3 checksum of `len` bytes. `bytes` is valid for `len` bytes and not null, also where `len` is 0. */
uint32_t jenkins_lookup3(const uint8_t *bytes, size_t len);

/* The fewest bytes that hold `value`, at least 1. */
size_t enc_size(uint64_t value);

/* The length of an FSHD block at an offset size of 1 to 8; 0 for any other size. */
uint64_t fshd_len(uint8_t offset_size);

#endif
