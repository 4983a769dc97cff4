/* Decodes the case on standard input (name, dictionary hex, payload hex, budget, parted by tabs) with the linked library, encodes its text
 * again, and takes one operation of a desk from open to close. */
#include "broachvale.h"
#include <stdio.h>
#include <stdlib.h>
#include <string.h>

static size_t unhex(const char *hex, uint8_t *bytes, size_t room)
{
    size_t n = 0;
    for (; n < room && hex[2 * n] != '\0' && hex[2 * n + 1] != '\0'; n++) {
        char pair[3] = {hex[2 * n], hex[2 * n + 1], '\0'};
        bytes[n] = (uint8_t)strtoul(pair, NULL, 16);
    }
    return n;
}

static int operate(void)
{
    static uint8_t store[BROACHVALE_STORE_BYTES];
    uint8_t desk[BROACHVALE_DESK_BYTES] = {0};
    uint16_t listed[8];
    uint32_t told[3];
    const uint8_t piece[5] = {1, 2, 3, 4, 5};
    uint32_t refusals = broachvale_desk_open(desk, sizeof desk, 7, 4, sizeof piece)
        + broachvale_desk_feed(desk, sizeof desk, store, sizeof store, 7, piece, sizeof piece)
        + broachvale_desk_start(desk, sizeof desk, 7)
        + broachvale_desk_finish_good(desk, sizeof desk, 7, 9)
        + broachvale_desk_status(desk, sizeof desk, 7, told, 3)
        + broachvale_desk_take(desk, sizeof desk, 7, 9)
        + broachvale_desk_list(desk, sizeof desk, listed, 8)
        + broachvale_desk_close(desk, sizeof desk, 7);
    return refusals == 0 && told[0] == 4 && told[1] == 5 && told[2] == 9 && listed[0] == 7 && listed[1] == 0
        && memcmp(store, piece, sizeof piece) == 0 && broachvale_desk_close(desk, sizeof desk, 7) == 24;
}

int main(void)
{
    static char line[65537];
    static uint8_t dictionary[32768], payload[32768], text[65535], back[16384];
    size_t told[3], length;
    if (fgets(line, sizeof line, stdin) == NULL || strtok(line, "\t") == NULL)
        return 2;
    size_t d = unhex(strtok(NULL, "\t"), dictionary, sizeof dictionary);
    size_t p = unhex(strtok(NULL, "\t"), payload, sizeof payload);
    size_t budget = strtoul(strtok(NULL, "\t"), NULL, 10);
    uint32_t number = broachvale_read(dictionary, d, payload, p, budget, text, sizeof text, told, 3);
    if (number != 0) {
        printf("refused: %u at %zu\n", (unsigned)number, told[0]);
        return 1;
    }
    length = told[2];
    printf("%zu tuples: %.*s\n", told[1], (int)length, (const char *)text);
    number = broachvale_write(dictionary, d, text, length, back, sizeof back, told, 3);
    puts(number == 0 && told[2] == p && memcmp(back, payload, p) == 0 ? "both directions meet" : "they don't meet");
    puts(operate() ? "the desk answers" : "the desk fails");
    return 0;
}
