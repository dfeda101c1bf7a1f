/* Plays recorded lists of calls (`player record`) in C: every loan is a block of its own and just as long as it is lent, so that a tool that watches memory
   (-fsanitize=address, valgrind) sees each byte outside. Answer, fuel and memory must be those of the record. */
#include <stdio.h>
#include <stdlib.h>
#include <string.h>

#include "lucia.h"

enum { NUMBER, SMALL, WORD, LOW, HIGH, IMAGE, PAGE, ARGS, HANDLERS, FUEL, STATE, LIVE, STORE, HELD_STATE, HELD_LIVE, HELD_STORE, CODE, TICKS, FIRST, SECOND, HEAD };

static const char *names[] = {"load", "start", "run", "answer", "clear", "text", "bytes", "set_global", "get_global", "set_builtin", "get_builtin"};

/* The memory that is kept from call to call; a call is lent copies of its first bytes. */
static uint8_t state[20000], live[70000], store[1100000];

static uint8_t *block(size_t len) {
    uint8_t *bytes = malloc(len ? len : 1);
    if (!bytes) abort();
    return bytes;
}

static uint8_t *next(FILE *file, size_t len) {
    uint8_t *bytes = block(len);
    if (fread(bytes, 1, len, file) != len) abort();
    return bytes;
}

static uint8_t *lend(const uint8_t *from, size_t len) {
    return memcpy(block(len), from, len);
}

static void back(uint8_t *to, uint8_t *lent, size_t len) {
    memcpy(to, lent, len);
    free(lent);
}

int main(int argc, char **argv) {
    FILE *file = argc == 2 ? fopen(argv[1], "rb") : NULL;
    uint64_t h[HEAD];
    size_t calls = 0;
    if (!file) return 2;
    while (fread(h, sizeof h, 1, file) == 1) {
        uint8_t *image = next(file, h[IMAGE]), *page = next(file, h[PAGE]), *args = next(file, h[ARGS]), *handlers = next(file, h[HANDLERS]);
        uint8_t *fuel = next(file, h[FUEL]), *charged = next(file, h[FUEL]);
        uint8_t *held[3] = {next(file, h[HELD_STATE]), next(file, h[HELD_LIVE]), next(file, h[HELD_STORE])};
        /* A list begins with nothing loaded, which its first call says by a word that no load has. */
        if (h[NUMBER] >> 32) memset(state, 0, sizeof state);
        uint8_t *s = lend(state, h[STATE]), *l = lend(live, h[LIVE]), *t = lend(store, h[STORE]);
        lucia_got got = {0, 0, 0};
        lucia_part part = {0, 0, 0, 0};
        lucia_ran ran = {0, 0};
        uint32_t code = 0, small = (uint32_t)h[SMALL];
#define LENT image, h[IMAGE], s, h[STATE], l, h[LIVE], t, h[STORE]
        switch ((uint32_t)h[NUMBER]) {
        case 0: got = lucia_load(LENT), code = got.code; break;
        case 1: code = lucia_start(LENT, h[LOW], h[HIGH], args, h[ARGS]); break;
        case 2: ran = lucia_run(LENT, fuel, h[FUEL], small), code = ran.code; break;
        case 3: code = lucia_answer(LENT, fuel, h[FUEL], small, h[WORD], h[LOW], h[HIGH], args, h[ARGS], handlers, h[HANDLERS]); break;
        case 4: code = lucia_clear(LENT); break;
        case 5: part = lucia_text(LENT, page, h[PAGE], h[LOW], h[HIGH]), code = part.code; break;
        case 6: part = lucia_bytes(LENT, h[LOW], h[HIGH]), code = part.code; break;
        case 7: code = lucia_set_global(LENT, small, h[LOW], h[HIGH]); break;
        case 8: got = lucia_get_global(LENT, small), code = got.code; break;
        case 9: code = lucia_set_builtin(LENT, small, h[LOW], h[HIGH]); break;
        default: got = lucia_get_builtin(LENT, small), code = got.code; break;
        }
        back(state, s, h[STATE]), back(live, l, h[LIVE]), back(store, t, h[STORE]);
        calls++;
        if (code != h[CODE] || ran.ticks != h[TICKS] || (got.low | part.start) != h[FIRST] || (got.high | part.len | (uint64_t)part.from << 63) != h[SECOND]
            || memcmp(fuel, charged, h[FUEL]) || memcmp(state, held[0], h[HELD_STATE]) || memcmp(live, held[1], h[HELD_LIVE]) || memcmp(store, held[2], h[HELD_STORE])) {
            printf("call %zu (%s) differs: answered %u, right is %u\n", calls, names[(uint32_t)h[NUMBER]], code, (uint32_t)h[CODE]);
            return 1;
        }
        free(image), free(page), free(args), free(handlers), free(fuel), free(charged), free(held[0]), free(held[1]), free(held[2]);
    }
    printf("%zu calls, no difference\n", calls);
    fclose(file);
    return 0;
}
