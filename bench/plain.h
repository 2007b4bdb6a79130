/* The plain C planners. The types come from the compiler itself, so that no C header is needed: the kit's compiler has none. */
#ifndef PLAIN_H
#define PLAIN_H

typedef __SIZE_TYPE__ size_t;
typedef __UINT8_TYPE__ uint8_t;
typedef __UINT16_TYPE__ uint16_t;
typedef __UINT32_TYPE__ uint32_t;
typedef __UINT64_TYPE__ uint64_t;

int plain_pnet(const uint8_t *s, size_t n, uint32_t *bound, size_t bn, uint32_t *refined,
               size_t rn, uint32_t *rounds, size_t cn, uint64_t *place);
int plain_urgent(const uint8_t *s, size_t n, uint32_t *places, size_t pn, uint32_t *figure,
                 size_t fn, uint32_t *rounds, size_t rn, uint64_t *place);
int plain_profibus(const uint8_t *s, size_t n, uint32_t *ttr, uint32_t *stream, uint64_t *place);
int plain_worldfip(const uint8_t *s, size_t n, uint64_t *rows, size_t rn, uint32_t *row_count,
                   uint64_t *place);
int plain_capture(const uint8_t *s, size_t n, const uint8_t *c, size_t m, uint64_t *answers,
                  size_t an, uint32_t *largest, size_t ln, uint64_t *above, size_t bn,
                  uint8_t *left, size_t on, uint64_t *place);
int plain_text_of(const uint8_t *s, size_t n, uint8_t *text, size_t room, uint32_t *length,
                  uint64_t *place);
int plain_sheet_of(const uint8_t *text, size_t n, uint8_t *s, size_t room, uint32_t *length,
                   uint64_t *place);
int plain_rewritten(const uint8_t *s, size_t n, uint8_t *new, size_t room, uint32_t *length,
                    uint64_t *place);

#endif
