/* The executor of Lucia, in eleven functions. docs/LAYOUT.md fixes the memory that a host lends, docs/ANSWERS.md says what each number means and what to do about it.

   A loan is a pointer and a length. Loans must not overlap, but for image and page, and one of length 0 has a pointer that is not null all the same. Nothing is kept between two calls but in
   lent memory, so a host may have as many jobs as it has memory for, and may copy or move one between two calls. The image is lent again in every call, and must be the loaded one.
   A refused call leaves every byte as it was; a run that is refused at an opcode or effect callback leaves memory as before that one, with the ticks and charges so far. */
#ifndef LUCIA_H
#define LUCIA_H

#include <stddef.h>
#include <stdint.h>

/* ---- Lengths and limits ---- */

#define LUCIA_CELL_BYTES 16        /* a cell, which holds one value: tag (32 bits), number (32), payload (64), little-endian */
#define LUCIA_STATE_BYTES 8256     /* the one length of a state block */
#define LUCIA_FUEL_BYTES 5         /* the one length of a fuel loan */
#define LUCIA_LIVE_CELLS 4096      /* the most cells of a live stack; a longer loan is used that far */
#define LUCIA_STORE_CELLS 65536    /* the most cells of a store; a longer loan is used that far */
#define LUCIA_IMAGE_LEAST 6        /* the least and the most bytes of an image */
#define LUCIA_IMAGE_MOST 65536
#define LUCIA_FRAMES 256           /* the most frames */
#define LUCIA_HANDLERS 16          /* the most handlers of a frame */
#define LUCIA_VALUES 4096          /* the most values in one call: arguments and handlers together */
#define LUCIA_NAMES 256            /* globals have numbers below this, and so have builtins */
#define LUCIA_SLICE 64             /* what a slice begins with */

/* ---- Numbers that a call answers with: accepted, refusals (1 to 22), and what a run or an answer came to (from 100 on) ---- */

enum {
    LUCIA_ACCEPTED = 0,
    LUCIA_IMAGE_SIZE = 1,      /* image under 6 or over 65,536 bytes */
    LUCIA_IMAGE_STRUCTURE = 2, /* image: record past its parent, bytes left over, wrong kind or size */
    LUCIA_IMAGE_NUMBER = 3,    /* image: a number against its rules, or text that is not UTF-8 */
    LUCIA_IMAGE_CODES = 4,     /* image: codes nested over 8 deep, or over 256 codes */
    LUCIA_BAD_VALUE = 5,       /* a value or an answer of unknown kind or of the wrong type, or over 4,096 values, or a name number over 255 */
    LUCIA_BAD_LOAN = 6,        /* a state block or fuel of another length */
    LUCIA_NOT_IN_FORM = 7,     /* memory that no load could lead to */
    LUCIA_NOT_LOADED = 10,     /* nothing is loaded */
    LUCIA_OUT_OF_TURN = 11,    /* start with frames or a result, answer without a wait, run during one */
    LUCIA_FEW_VALUES = 12,     /* the script's stack has too few values, or it has a Copy or Swap of 0 */
    LUCIA_MANY_FRAMES = 13,    /* a 257th frame */
    LUCIA_LIVE_FULL = 14,      /* the live stack is too small */
    LUCIA_STORE_FULL = 15,     /* the store is too small */
    LUCIA_MANY_HANDLERS = 16,  /* a 17th different handler in a frame */
    LUCIA_DONE = 100,          /* there is a result, or there are no frames */
    LUCIA_OUT_OF_FUEL = 101,   /* fuel is not above 0, or its mark is set */
    LUCIA_PAUSED = 102,        /* all ticks are taken; the next run goes on in the same slice */
    LUCIA_HOST = 103,          /* a host callback is on top and waits for lucia_answer */
    LUCIA_GO_ON = 104          /* an answer was taken, and fuel is left to run on */
};

/* ---- Values ---- */

/* Tags of values: the type is the tag modulo 16. What stands in a cell's number and payload beside the tag is said behind each; every other bit is 0. */
enum {
    LUCIA_NULL = 0,
    LUCIA_BOOL = 1,           /* number: 0 or 1 */
    LUCIA_INT = 2,            /* payload: two's complement */
    LUCIA_FLOAT = 3,          /* payload: its bits */
    LUCIA_STR = 4,            /* of the image; number: code, payload: constant */
    LUCIA_BYTES = 5,          /* number: code, payload: constant */
    LUCIA_LIST = 6,           /* number: handle */
    LUCIA_CLOSURE = 7,        /* number: handle */
    LUCIA_BUILTIN_EFFECT = 8, /* number: 0 Yield, 1 Error, 2 Panic */
    LUCIA_MESSAGE = 20,       /* a Str that an error shows as; number: 1 to 6, two less than the kind of that error's result */
    LUCIA_CONTINUATION = 23,  /* number: handle */
    LUCIA_EFFECT = 24,        /* of the image; number: code, payload: constant */
    LUCIA_CALLBACK = 39       /* number: its number, payload: its word */
};

/* Types as an error result names them. */
enum {
    LUCIA_TYPE_NULL = 0,
    LUCIA_TYPE_BOOL = 1,
    LUCIA_TYPE_INT = 2,
    LUCIA_TYPE_FLOAT = 3,
    LUCIA_TYPE_STR = 4,
    LUCIA_TYPE_BYTES = 5,
    LUCIA_TYPE_TABLE = 6,
    LUCIA_TYPE_FUNCTION = 7,
    LUCIA_TYPE_EFFECT = 8,
    LUCIA_TYPE_USERDATA = 9
};

enum { LUCIA_YIELD = 0, LUCIA_ERROR = 1, LUCIA_PANIC = 2 };

/* ---- Kinds of lucia_answer ---- */

enum {
    LUCIA_ANSWER_CALL = 0,         /* calls the subject, a Function, under handlers; the callback is called again with what it returns */
    LUCIA_ANSWER_PERFORM = 1,      /* performs the subject, an Effect; the callback is called again with what it is resumed with */
    LUCIA_ANSWER_TAIL_CALL = 2,    /* the callback gives way to a call of the subject, a Function */
    LUCIA_ANSWER_TAIL_PERFORM = 3, /* the callback gives way to a perform of the subject, an Effect */
    LUCIA_ANSWER_RETURN_VALUE = 4, /* the callback returns the subject */
    LUCIA_ANSWER_ERROR = 5,        /* the callback throws the subject as an Error */
    LUCIA_ANSWER_PANIC = 6         /* the callback throws the subject as a Panic */
};

/* ---- State block: byte offsets, and how many bits stand there ---- */

enum {
    LUCIA_AT_LOADED = 0,        /* 32: 1 if something is loaded */
    LUCIA_AT_FRAMES = 4,        /* 32: how many frames */
    LUCIA_AT_STORE_USED = 8,    /* 64: how many cells of the store are used */
    LUCIA_AT_SLICE_LEFT = 16,   /* 32: left of an unfinished slice; 64 is none begun */
    LUCIA_AT_WAIT = 20,         /* 32: 1 in a wait for the host, else 0 */
    LUCIA_AT_RESULT_KIND = 24,  /* 64: LUCIA_RESULT_NONE and the others */
    LUCIA_AT_RESULT = 32,       /* a cell: the result's value or fields */
    LUCIA_AT_SECOND_TYPE = 48,  /* 32: second type of an error */
    LUCIA_AT_RESULT_ARGS = 56,  /* 64: how many arguments of an effect result stand behind the frames */
    LUCIA_AT_GLOBALS = 64,      /* 256 cells */
    LUCIA_AT_BUILTINS = 4160    /* 256 cells */
};

/* Kinds of a result, with its cell's tag, number and payload where these are not the value's own. */
enum {
    LUCIA_RESULT_NONE = 0,
    LUCIA_RESULT_VALUE = 1,
    LUCIA_RESULT_EFFECT = 2,            /* the effect that nothing handled */
    LUCIA_RESULT_CALL_ARGUMENTS = 3,    /* least required, 1 if more are allowed (else exactly that many), given */
    LUCIA_RESULT_UN_OPERATOR = 4,       /* opcode, operand, type */
    LUCIA_RESULT_BIN_OPERATOR = 5,      /* opcode, operand, first type */
    LUCIA_RESULT_META_UN_OPERATOR = 6,  /* name of the metamethod, 0, type */
    LUCIA_RESULT_META_BIN_OPERATOR = 7, /* name of the metamethod, 0, first type */
    LUCIA_RESULT_ZERO_DIVISOR = 8,
    LUCIA_RESULT_ERROR = 9,             /* an Error that a host's answer threw and nothing handled: its value */
    LUCIA_RESULT_PANIC = 10             /* a Panic likewise */
};

/* ---- Frames in the live stack, the bottom frame first, and objects in the store ---- */

/* Tags of cells that are no values. */
enum {
    LUCIA_FRAME_LUCIA = 64,        /* a frame's first cell; number: locals, payload: handlers */
    LUCIA_FRAME_CALLBACK = 65,
    LUCIA_FRAME_EFFECT = 66,       /* an effect called as a function */
    LUCIA_HANDLER = 67,            /* a handler's second cell; number: target */
    LUCIA_PLACE = 68,              /* a frame's third cell; number: the next opcode, payload: stack values */
    LUCIA_OBJECT_CLOSURE = 128,    /* an object's first cell; number: code, payload: upvalues */
    LUCIA_OBJECT_LIST = 129,       /* payload: items */
    LUCIA_OBJECT_CONTINUATION = 130 /* number: frames, payload: their cells */
};

/* Cells of a frame: its head, then its locals, its handlers (two cells each), its stack (the top last). */
enum {
    LUCIA_FRAME_CELL_KIND = 0,
    LUCIA_FRAME_CELL_CALLEE = 1,   /* closure, callback with number and word, or effect */
    LUCIA_FRAME_CELL_PLACE = 2,
    LUCIA_FRAME_HEAD = 6
};

/* ---- What a call gives ---- */

/* A code and a value, which is two numbers: its cell's tag + 2^32 * number, and its payload. */
typedef struct {
    uint32_t code;
    uint64_t low, high;
} lucia_got;

/* A code and the ticks that a run took. */
typedef struct {
    uint32_t code;
    uint32_t ticks;
} lucia_ran;

/* A code and a part: from 0 of the image, from 1 of the page. */
typedef struct {
    uint32_t code, from;
    uint64_t start, len;
} lucia_part;

#ifdef __cplusplus
extern "C" {
#endif

/* Loads an image into memory of any content, and gives the outermost closure. */
lucia_got lucia_load(const uint8_t *image, size_t image_len, uint8_t *state, size_t state_len, const uint8_t *live, size_t live_len, uint8_t *store, size_t store_len);

/* Starts a Function with arguments, which are cells one behind the other: LUCIA_ACCEPTED, or the number of a refusal. */
uint32_t lucia_start(const uint8_t *image, size_t image_len, uint8_t *state, size_t state_len, uint8_t *live, size_t live_len, uint8_t *store, size_t store_len,
                     uint64_t function_low, uint64_t function_high, const uint8_t *args, size_t args_len);

/* Runs for so many ticks and charges fuel: LUCIA_DONE, LUCIA_OUT_OF_FUEL, LUCIA_PAUSED or LUCIA_HOST, or the number of a refusal. */
lucia_ran lucia_run(const uint8_t *image, size_t image_len, uint8_t *state, size_t state_len, uint8_t *live, size_t live_len, uint8_t *store, size_t store_len,
                    uint8_t *fuel, size_t fuel_len, uint32_t ticks);

/* Answers the host callback that waits, with the word that its frame keeps, and charges fuel: LUCIA_GO_ON or LUCIA_OUT_OF_FUEL, or the number of a refusal. */
uint32_t lucia_answer(const uint8_t *image, size_t image_len, uint8_t *state, size_t state_len, uint8_t *live, size_t live_len, uint8_t *store, size_t store_len,
                      uint8_t *fuel, size_t fuel_len, uint32_t kind, uint64_t word, uint64_t subject_low, uint64_t subject_high,
                      const uint8_t *args, size_t args_len, const uint8_t *handlers, size_t handlers_len);

/* Drops frames, result, wait and slice. */
uint32_t lucia_clear(const uint8_t *image, size_t image_len, uint8_t *state, size_t state_len, const uint8_t *live, size_t live_len, const uint8_t *store, size_t store_len);

/* Where the text of a Str stands: in the image, or, for a message, in the page, which has an LF after each of its messages. */
lucia_part lucia_text(const uint8_t *image, size_t image_len, const uint8_t *state, size_t state_len, const uint8_t *live, size_t live_len, const uint8_t *store, size_t store_len,
                      const uint8_t *page, size_t page_len, uint64_t low, uint64_t high);

/* Where the bytes of a Bytes stand in the image. */
lucia_part lucia_bytes(const uint8_t *image, size_t image_len, const uint8_t *state, size_t state_len, const uint8_t *live, size_t live_len, const uint8_t *store, size_t store_len,
                       uint64_t low, uint64_t high);

/* Sets a global by its name number. */
uint32_t lucia_set_global(const uint8_t *image, size_t image_len, uint8_t *state, size_t state_len, const uint8_t *live, size_t live_len, const uint8_t *store, size_t store_len,
                          uint32_t number, uint64_t low, uint64_t high);

/* Gives a global, null if it was never set. */
lucia_got lucia_get_global(const uint8_t *image, size_t image_len, const uint8_t *state, size_t state_len, const uint8_t *live, size_t live_len, const uint8_t *store, size_t store_len,
                           uint32_t number);

/* Sets a builtin, which a script reads where the global of that number is null. */
uint32_t lucia_set_builtin(const uint8_t *image, size_t image_len, uint8_t *state, size_t state_len, const uint8_t *live, size_t live_len, const uint8_t *store, size_t store_len,
                           uint32_t number, uint64_t low, uint64_t high);

/* Gives a builtin, null if it was never set. */
lucia_got lucia_get_builtin(const uint8_t *image, size_t image_len, const uint8_t *state, size_t state_len, const uint8_t *live, size_t live_len, const uint8_t *store, size_t store_len,
                            uint32_t number);

#ifdef __cplusplus
}
#endif

/* ---- Helpers, each for what is easily got wrong by hand ---- */

/* All loans of a job. LUCIA_LENT puts them first in a call, in their order: lucia_run(LUCIA_LENT(job), fuel, LUCIA_FUEL_BYTES, 1000). */
typedef struct {
    const uint8_t *image;
    size_t image_len;
    uint8_t *state;
    size_t state_len;
    uint8_t *live;
    size_t live_len;
    uint8_t *store;
    size_t store_len;
} lucia_loans;

#define LUCIA_LENT(job) (job).image, (job).image_len, (job).state, (job).state_len, (job).live, (job).live_len, (job).store, (job).store_len

/* A value, as a cell has it; LUCIA_BOTH passes it as two numbers: lucia_set_global(LUCIA_LENT(job), 3, LUCIA_BOTH(value)). */
typedef struct {
    uint64_t low, high;
} lucia_value;

#define LUCIA_BOTH(value) (value).low, (value).high

static inline lucia_value lucia_value_of(uint32_t tag, uint32_t number, uint64_t payload) {
    lucia_value value;
    value.low = (uint64_t)tag | (uint64_t)number << 32;
    value.high = payload;
    return value;
}

static inline uint32_t lucia_tag(lucia_value value) { return (uint32_t)value.low; }
static inline uint32_t lucia_number(lucia_value value) { return (uint32_t)(value.low >> 32); }
static inline uint64_t lucia_payload(lucia_value value) { return value.high; }
static inline uint32_t lucia_type(lucia_value value) { return (uint32_t)value.low % 16; }

/* Two's complement from and to 64 bits, without a conversion that C leaves to the compiler. */
static inline int64_t lucia_signed(uint64_t bits) { return bits >> 63 ? -(int64_t)~bits - 1 : (int64_t)bits; }
static inline lucia_value lucia_int(int64_t n) { return lucia_value_of(LUCIA_INT, 0, (uint64_t)n); }
static inline int64_t lucia_int_of(lucia_value value) { return lucia_signed(value.high); }

/* Little-endian numbers at any address, whatever the machine's own order and alignment. */
static inline uint32_t lucia_u32_at(const uint8_t *at) {
    return (uint32_t)at[0] | (uint32_t)at[1] << 8 | (uint32_t)at[2] << 16 | (uint32_t)at[3] << 24;
}

static inline uint64_t lucia_u64_at(const uint8_t *at) { return (uint64_t)lucia_u32_at(at) | (uint64_t)lucia_u32_at(at + 4) << 32; }

static inline void lucia_put_u32(uint8_t *at, uint32_t number) {
    int i;
    for (i = 0; i < 4; i++) at[i] = (uint8_t)(number >> 8 * i);
}

/* Cell number `index` of a loan, and a value put there: lists of arguments and of handlers are made so. */
static inline lucia_value lucia_cell_at(const uint8_t *cells, size_t index) {
    lucia_value value;
    value.low = lucia_u64_at(cells + LUCIA_CELL_BYTES * index);
    value.high = lucia_u64_at(cells + LUCIA_CELL_BYTES * index + 8);
    return value;
}

static inline void lucia_put_cell(uint8_t *cells, size_t index, lucia_value value) {
    uint8_t *at = cells + LUCIA_CELL_BYTES * index;
    lucia_put_u32(at, (uint32_t)value.low);
    lucia_put_u32(at + 4, (uint32_t)(value.low >> 32));
    lucia_put_u32(at + 8, (uint32_t)value.high);
    lucia_put_u32(at + 12, (uint32_t)(value.high >> 32));
}

/* Fuel as its 5 bytes: the number, and no mark. */
static inline void lucia_set_fuel(uint8_t *fuel, int32_t number) {
    lucia_put_u32(fuel, (uint32_t)number);
    fuel[4] = 0;
}

static inline int32_t lucia_fuel_left(const uint8_t *fuel) {
    uint32_t bits = lucia_u32_at(fuel);
    return bits >> 31 ? -(int32_t)~bits - 1 : (int32_t)bits;
}

/* A frame in the live stack, by the cell at which it starts (0 for the bottom frame): how many it has of each, where each starts, and where the next frame starts.
   It trusts memory: ask it only after a call that was not refused with 7 or 10, and only for as many frames as LUCIA_AT_FRAMES says. */
typedef struct {
    uint32_t kind, place;
    lucia_value callee;
    size_t locals, locals_at, handlers, handlers_at, stack, stack_at, next;
} lucia_frame;

static inline lucia_frame lucia_frame_at(const uint8_t *live, size_t cell) {
    lucia_value head = lucia_cell_at(live, cell + LUCIA_FRAME_CELL_KIND), place = lucia_cell_at(live, cell + LUCIA_FRAME_CELL_PLACE);
    lucia_frame frame;
    frame.kind = lucia_tag(head);
    frame.place = lucia_number(place);
    frame.callee = lucia_cell_at(live, cell + LUCIA_FRAME_CELL_CALLEE);
    frame.locals = lucia_number(head);
    frame.handlers = (size_t)lucia_payload(head);
    frame.stack = (size_t)lucia_payload(place);
    frame.locals_at = cell + LUCIA_FRAME_HEAD;
    frame.handlers_at = frame.locals_at + frame.locals;
    frame.stack_at = frame.handlers_at + 2 * frame.handlers;
    frame.next = frame.stack_at + frame.stack;
    return frame;
}

/* The top frame, the one that waits if the host is asked; there must be a frame. */
static inline lucia_frame lucia_top_frame(const uint8_t *state, const uint8_t *live) {
    uint32_t left = lucia_u32_at(state + LUCIA_AT_FRAMES);
    lucia_frame frame = lucia_frame_at(live, 0);
    while (left-- > 1) frame = lucia_frame_at(live, frame.next);
    return frame;
}

#endif
