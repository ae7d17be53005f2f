/* Unpacks a few words through the C interface and prints what came back: a word of each answer, and slices with
 * more room than needed, with too little and with none. */
#include <inttypes.h>
#include <stdio.h>

#include "nadvoszip.h"

#define ROOM 9
#define UNTOUCHED 99

static void unpack_into(uint64_t word, size_t length)
{
    uint64_t fields[ROOM];
    size_t i;

    for (i = 0; i < ROOM; i++) {
        fields[i] = UNTOUCHED;
    }
    printf("0x%016" PRIx64 " into %zu: answer %" PRIu64 ", slice", word, length, nadvoszip_unpack(word, fields, length));
    for (i = 0; i < ROOM; i++) {
        printf(" %" PRIu64, fields[i]);
    }
    printf("\n");
}

int main(void)
{
    static const uint64_t words[] = {
        0x0808000000000005u, /* const r1 5 */
        0x5418200000000004u, /* load 4 r3 [r1+4] */
        0xa800000000000000u, /* kind 21 */
        0x0a08000000000005u, /* const with a width */
        0x0800000000000005u, /* const into r0 */
        0x0808000000010005u, /* const with a zero bit set */
    };
    size_t i;

    for (i = 0; i < sizeof words / sizeof words[0]; i++) {
        unpack_into(words[i], ROOM);
    }
    for (i = 0; i < ROOM; i += 3) {
        unpack_into(words[1], i);
    }
    printf("no slice: answer %" PRIu64 "\n", nadvoszip_unpack(words[0], NULL, 0));
    return 0;
}
