/* dvvstore.h: what a hook sees, and the helpers that it may call.
 *
 * A hook is one function, entered with
 *   input    the layout below, zero from used on
 *   used     bytes of the layout in use (a number; the verifier knows only that it is at most the input window's length)
 *   output   where a value to write goes: a 32-bit length, then the bytes
 *   room     length of the output window
 * and answers one of the codes below. It reads by the accessors at the end, which keep within their windows, so that the verifier accepts
 * what is read by them. See docs/HOOKS.md for how it becomes an image and what the verifier refuses.
 */
#ifndef DVVSTORE_H
#define DVVSTORE_H

typedef unsigned char u8;
typedef unsigned int u32;
typedef unsigned long long u64;

/* The head, and so many rows behind it. A pre-commit hook's first row is the new content, with vnode 0 and counter 0. A
 * tombstone, that of a delete too, has no IS_VALUE and length 0. Behind the last row stand values, which anyone may have
 * written: test an index against head.rows before its row is read. */
struct head { u32 kind, rows, used, zero; };
struct row { u32 vnode, flags; u64 counter; u32 offset, length; };

#define HEAD_SIZE 16
#define ROW_SIZE 24
#define IS_VALUE 1

/* Answers of a pre-commit hook: */
#define PASS 0
#define CHANGE 1
#define REJECT(code) (256 + (code))
/* Answers of a resolver: */
#define KEEP 0
#define WRITE 1
#define DELETE 2
#define TAKE(row) (256 + (row)) /* rows from 0 */

/* Helpers. What copy and fill write is not input; every range lies within one of input, output and the stack. */
static u64 (*const copy)(void *to, const void *from, u64 len) = (void *)1;
static u64 (*const fill)(void *to, u64 byte, u64 len) = (void *)2;
/* 1 where the bytes are equal, else 0. */
static u64 (*const same)(const void *a, const void *b, u64 len) = (void *)3;
/* In byte order: 0 before, 1 equal, 2 after. */
static u64 (*const order)(const void *a, u64 a_len, const void *b, u64 b_len) = (void *)16;
/* 1 + the first place, 0 where it is absent. */
static u64 (*const find)(const void *in, u64 in_len, const void *what, u64 what_len) = (void *)17;
/* The number that 1 to 19 digits spell, else NO_NUMBER. */
#define NO_NUMBER 0xffffffffffffffffULL
static u64 (*const decimal)(const void *text, u64 len) = (void *)18;
/* The index of the row with the greatest counter, of those the greatest vnode, of those the first. A row with counter 0 is no
 * sibling but counts in the index. 64 where there is no sibling, or the bytes are no layout of 1 to 64 whole rows. */
static u64 (*const newest)(const void *input, u64 used) = (void *)19;

/* Accessors. Offsets are numbers of 64 bits, counted from input, or from output, in bytes. One past the last that fits the window is
 * clamped to that: so what lies in the window is read as it stands, and nothing is read, written or handed to a helper outside. */

/* The lengths of the image's windows, which make_hooks.py tells. */
#ifndef INPUT_WINDOW
#define INPUT_WINDOW 65536
#endif
#ifndef OUTPUT_WINDOW
#define OUTPUT_WINDOW 65536
#endif

/* For functions of a hook's own, since it may have one function alone. */
#define INLINE static inline __attribute__((always_inline))
/* A slot of an accessor is told by the line that calls it. */
#define ACCESSOR INLINE __attribute__((nodebug))

/* From here on the compiler knows nothing of a variable: so it tests that, where it stands, and not another number in its place. */
#define SETTLE(variable) __asm__ volatile("" : "+r"(variable))

/* n, and most where n is greater. For a number that leads somewhere by arithmetic of the hook's own. */
ACCESSOR u64 at_most(u64 n, u64 most)
{
    if (__builtin_constant_p(n)) return n < most ? n : most;
    SETTLE(n);
    if (n > most) n = most;
    SETTLE(n);
    return n;
}

/* Row i, from 0; behind the last row that the window has room for, that one. Behind head.rows there are values: test i against it. */
ACCESSOR const struct row *row_at(const u8 *input, u64 i)
{
    return (const struct row *)(input + HEAD_SIZE + ROW_SIZE * at_most(i, (INPUT_WINDOW - HEAD_SIZE) / ROW_SIZE - 1));
}

/* Where the input has `longest` bytes that may be read, a constant: at the offset, but at most so many before the window's end. So it is
 * the offset's place where so many bytes are there; where fewer may be, read by number_at, or test used against the window less longest. */
ACCESSOR const u8 *bytes_at(const u8 *input, u64 offset, u64 longest)
{
    return input + at_most(offset, INPUT_WINDOW - longest);
}

/* The same for a row's value: of one of `longest` bytes or more, or before the window's last `longest` bytes, as a new content is where
 * the window is 1,600 longer. */
ACCESSOR const u8 *value_at(const u8 *input, const struct row *row, u64 longest)
{
    return bytes_at(input, row->offset, longest);
}

/* The number in 1, 2, 4 or 8 bytes (size) at an offset of the input, the lowest first. A field of a value that is long enough is
 * number_at(input, (u64)row->offset + place, size). */
ACCESSOR u64 number_at(const u8 *input, u64 offset, u64 size)
{
    const u8 *at = bytes_at(input, offset, size);
    return size == 1 ? *at : size == 2 ? *(const unsigned short *)at : size == 4 ? *(const u32 *)at : *(const u64 *)at;
}

/* Where the output has `longest` bytes that may be written, a constant: as bytes_at has it. A value's first byte is at 4. */
ACCESSOR u8 *output_at(u8 *output, u64 place, u64 longest)
{
    return output + at_most(place, OUTPUT_WINDOW - longest);
}

/* 1 where so many bytes (length) from an offset on lie in a window of so many, else 0. Both are variables of type u64: behind this test,
 * with no other between, a helper takes input + offset, or output + offset, with that length. */
#define LIES_IN(offset, length, window) __extension__({ \
    _Static_assert(sizeof(offset) == 8 && sizeof(length) == 8, "an offset and a length are variables of type u64"); \
    u64 lies_in = 0; \
    SETTLE(offset); \
    if (__builtin_expect((offset) <= (window), 1)) { \
        if (!__builtin_constant_p(length)) SETTLE(length); \
        if (__builtin_expect((length) <= (window), 1)) { \
            SETTLE(offset); \
            if (__builtin_expect((offset) + (length) <= (window), 1)) lies_in = 1; \
        } \
    } \
    lies_in; \
})

/* The helpers of these names, of so many bytes (length) from an offset of the input on. Where these don't lie in it: NO_NUMBER, and 0. */
ACCESSOR u64 decimal_at(const u8 *input, u64 offset, u64 length)
{
    return LIES_IN(offset, length, INPUT_WINDOW) ? decimal(input + offset, length) : NO_NUMBER;
}

ACCESSOR u64 same_at(const u8 *input, u64 offset, const void *what, u64 length)
{
    return LIES_IN(offset, length, INPUT_WINDOW) ? same(input + offset, what, length) : 0;
}

ACCESSOR u64 find_at(const u8 *input, u64 offset, u64 length, const void *what, u64 what_len)
{
    return LIES_IN(offset, length, INPUT_WINDOW) ? find(input + offset, length, what, what_len) : 0;
}

/* Copies so many bytes (length) from an offset of the input to a place of the output, of which a value's first byte is at 4. 1 where it
 * is done; 0, and nothing is copied, where these bytes don't lie in the input, or don't fit the output there. */
ACCESSOR u64 copy_at(u8 *output, u64 place, const u8 *input, u64 offset, u64 length)
{
    if (!LIES_IN(place, length, OUTPUT_WINDOW)) return 0;
    if (!LIES_IN(offset, length, INPUT_WINDOW)) return 0;
    copy(output + place, input + offset, length);
    return 1;
}

/* Copies so many bytes (length) from an offset of the input into a local array of `most` bytes, a constant, in which single bytes are
 * read at constant places. 1 where it is done; 0, and nothing is copied, where they are more than that, or don't lie in the input. */
ACCESSOR u64 load_at(void *array, u64 most, const u8 *input, u64 offset, u64 length)
{
    if (!LIES_IN(offset, length, INPUT_WINDOW)) return 0;
    if (__builtin_expect(length > most, 0)) return 0;
    copy(array, input + offset, length);
    return 1;
}

/* 1 where the values of two rows are the same bytes, else 0; 0 where one of them doesn't lie in the input. */
ACCESSOR u64 same_values(const u8 *input, const struct row *row, const struct row *other)
{
    u64 offset = row->offset, behind = other->offset, length = row->length;
    if (length != other->length) return 0;
    if (!LIES_IN(offset, length, INPUT_WINDOW)) return 0;
    if (!LIES_IN(behind, length, INPUT_WINDOW)) return 0;
    return same(input + offset, input + behind, length);
}

/* As order has it, of the values of two rows; 1 where one of them doesn't lie in the input. */
ACCESSOR u64 order_values(const u8 *input, const struct row *row, const struct row *other)
{
    u64 offset = row->offset, length = row->length, behind = other->offset, size = other->length;
    if (!LIES_IN(offset, length, INPUT_WINDOW)) return 1;
    if (!LIES_IN(behind, size, INPUT_WINDOW)) return 1;
    return order(input + offset, length, input + behind, size);
}

#endif
