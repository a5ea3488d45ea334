#include <stddef.h>
#include <stdint.h>
void plain_digest(const uint8_t *m, size_t n, uint8_t out[32]);
void plain_tag(const uint8_t *key, size_t kn, const uint8_t *m, size_t n, uint8_t out[32]);
