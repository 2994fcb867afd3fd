/* Prints what one unit of a book has available after its calls: availability UNIT < BOOK */
#include <hasheqro.h>
#include <inttypes.h>
#include <stdio.h>
#include <stdlib.h>

int main(int count, char **words) {
    static uint8_t book[65537];
    size_t length = fread(book, 1, sizeof book, stdin);
    struct hasheqro_table table = hasheqro_figures(book, length);
    uint64_t unit = count == 2 ? strtoull(words[1], NULL, 10) : 0;
    if (length > 65536 || !table.accepted || unit < 1 || unit > table.unit_count)
        return fputs("no such unit, or no book that is accepted\n", stderr), 1;
    printf("unit %" PRIu64 " has %" PRId64 " available\n", unit, table.units[unit - 1].availability);
    return 0;
}
