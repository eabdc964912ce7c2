/* The least that a program has to do before it can say that a read in octet mode is lawful, in plain C, beside which
   least.py measures tftp-audit check: it reads the text by 65,536 bytes, finds the end of each line and the spaces in it,
   decodes the digits of each payload by 32 or 64 at a time and sees that they are digits, keeps the blocks in one piece of
   memory, where each is decoded at its place, and compares one that comes again. It tests no rule, no port and no number,
   and a text that is no lawful read it takes for anything. It prints how many lines there were, and bytes of the file. */
#include <immintrin.h>
#include <stdio.h>
#include <stdlib.h>
#include <string.h>
#include <unistd.h>

enum { AT_ONCE = 65536, LONGEST_LINE = 131116 };

/* The vectors of the processor that it is compiled for: by LANES the operations on lanes, by WHOLE those on all bits. */
#ifdef __AVX2__
typedef __m256i vector;
#define LANES(operation) _mm256_##operation
#define WHOLE(operation) _mm256_##operation##_si256
/* what packs two vectors does so in each half */
#define IN_ORDER(packed) _mm256_permute4x64_epi64(packed, 0xd8)
#else
typedef __m128i vector;
#define LANES(operation) _mm_##operation
#define WHOLE(operation) _mm_##operation##_si128
#define IN_ORDER(packed) packed
#endif

enum { AT_A_TIME = sizeof(vector) };

static unsigned char text[LONGEST_LINE + AT_ONCE];
static unsigned char again[65536];

/* The values of as many digits of either case as a vector has bytes; what is none makes bits of `wrong`. */
static vector values(vector digits, vector *wrong) {
    vector number = LANES(sub_epi8)(digits, LANES(set1_epi8)('0'));
    vector letter = LANES(sub_epi8)(WHOLE(or)(digits, LANES(set1_epi8)(32)), LANES(set1_epi8)('a'));
    vector is_number = LANES(cmpeq_epi8)(LANES(min_epu8)(number, LANES(set1_epi8)(9)), number);
    vector is_letter = LANES(cmpeq_epi8)(LANES(min_epu8)(letter, LANES(set1_epi8)(5)), letter);
    *wrong = WHOLE(or)(*wrong, WHOLE(andnot)(WHOLE(or)(is_number, is_letter), LANES(set1_epi8)(1)));
    return LANES(blendv_epi8)(LANES(add_epi8)(letter, LANES(set1_epi8)(10)), number, is_number);
}

/* As many bytes as a vector has, of twice as many digits. */
static void decode_vector(const unsigned char *digits, unsigned char *bytes, vector *wrong) {
    vector weights = LANES(set1_epi16)(0x0110);
    vector first = values(WHOLE(loadu)((const vector *)digits), wrong);
    vector second = values(WHOLE(loadu)((const vector *)(digits + AT_A_TIME)), wrong);
    vector pairs = LANES(packus_epi16)(LANES(maddubs_epi16)(first, weights), LANES(maddubs_epi16)(second, weights));
    WHOLE(storeu)((vector *)bytes, IN_ORDER(pairs));
}

/* Decodes by vectors, what is left over by way of a copy. */
static int decode(const unsigned char *digits, size_t count, unsigned char *bytes) {
    vector wrong = WHOLE(setzero)();
    size_t at = 0;
    for (; at + AT_A_TIME <= count; at += AT_A_TIME) decode_vector(digits + 2 * at, bytes + at, &wrong);
    unsigned char last[2 * AT_A_TIME], decoded[AT_A_TIME];
    memset(last, '0', sizeof last);
    memcpy(last, digits + 2 * at, 2 * (count - at));
    decode_vector(last, decoded, &wrong);
    memcpy(bytes + at, decoded, count - at);
    return WHOLE(testz)(wrong, wrong);
}

struct file {
    unsigned char *bytes;
    size_t length, room, block_size;
    unsigned next;
};

/* Room for one more block, by sixteen times what there was: what is not written to costs nothing, and a file that grows
   by doubling is moved more often. With what malloc keeps beside it, less than a page, it is a row of large pages. */
static void make_room(struct file *file) {
    size_t page = 1 << 12, large = 1 << 21;
    if (file->room - file->length >= sizeof again) return;
    file->room = (16 * file->room + sizeof again + page + large - 1) / large * large - page;
    file->bytes = realloc(file->bytes, file->room);
    if (!file->bytes) exit(2);
}

static int take_block(struct file *file, unsigned number, const unsigned char *digits, size_t length) {
    if (number == file->next) {
        make_room(file);
        int whole = decode(digits, length, file->bytes + file->length);
        if (number == 1) file->block_size = length;
        file->length += length;
        file->next++;
        return whole;
    }
    if (!number || number > file->next || length > sizeof again) return 0;
    return decode(digits, length, again) && !memcmp(again, file->bytes + (number - 1) * file->block_size, length);
}

/* The last piece of a line, which spells its payload, or nothing. */
static const unsigned char *payload_of(const unsigned char *line, const unsigned char *end) {
    for (int spaces = 0; spaces < 3; spaces++) {
        line = memchr(line, ' ', end - line);
        if (!line) return end;
        line++;
    }
    return line;
}

static int take_line(struct file *file, const unsigned char *line, const unsigned char *end) {
    const unsigned char *digits = payload_of(line, end);
    size_t length = (end - digits) / 2;
    unsigned char head[4];
    if (length < sizeof head) return 1;
    if (!decode(digits, sizeof head, head)) return 0;
    if (head[1] != 3) return 1;
    return take_block(file, head[2] << 8 | head[3], digits + 2 * sizeof head, length - sizeof head);
}

int main(void) {
    struct file file = {NULL, 0, 0, 0, 1};
    size_t held = 0, lines = 0;
    int whole = 1;
    for (ssize_t came; (came = read(0, text + held, AT_ONCE)) > 0;) {
        const unsigned char *line = text, *all = text + held + came, *end;
        for (; (end = memchr(line, '\n', all - line)); line = end + 1, lines++) whole &= take_line(&file, line, end);
        held = all - line;
        if (held > LONGEST_LINE) return 2;
        memmove(text, line, held);
    }
    printf("lines %zu bytes %zu%s\n", lines, file.length, whole ? "" : ", not whole");
    return !whole;
}
