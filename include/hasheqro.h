/* The water balance of a basin book, as proved functions: bytes in, text or figures out. */
#ifndef HASHEQRO_H
#define HASHEQRO_H

#include <stdbool.h>
#include <stddef.h>
#include <stdint.h>

#ifdef __cplusplus
extern "C" {
#endif

/* The bytes that the buffer of hasheqro_print has. */
#define HASHEQRO_ROOM 1064960

/* The most units and aquifers of a book. */
#define HASHEQRO_UNITS 64
#define HASHEQRO_AQUIFERS 32

/* The figures of a unit, in thousand cubic metres. */
struct hasheqro_unit {
    int64_t flow;         /* mean annual flow out of the unit */
    uint64_t committed;   /* the part of the demand below that falls on this flow; of an outlet its commitment */
    uint64_t reserve;     /* the part of the unit's own demand that falls on its own water */
    int64_t availability; /* flow less committed volume; negative is a deficit */
};

/* The figures of an aquifer, in thousand cubic metres. */
struct hasheqro_aquifer {
    int64_t recharge;     /* mean annual recharge */
    int64_t availability; /* recharge less committed discharge and extraction; negative is a deficit */
};

/* The table of a book after its calls. Unit and aquifer number n stand at index n - 1; unused places are 0. */
struct hasheqro_table {
    bool accepted;          /* whether the description was accepted */
    uint8_t number;         /* the refusal of the description, or of the call record that failed (1 or 2); 0 if there is none */
    uint64_t place;         /* its place: the byte offset of a record, of 8 and 10 at the end a unit's number; 0 if there is none */
    uint64_t unit_count;    /* units of the book; 0 if the description is refused */
    uint64_t aquifer_count; /* aquifers of the book; 0 if the description is refused */
    struct hasheqro_unit units[HASHEQRO_UNITS];
    struct hasheqro_aquifer aquifers[HASHEQRO_AQUIFERS];
};

/* Puts what the program `balance` prints for a book into a buffer of exactly HASHEQRO_ROOM bytes, and returns the number of bytes. */
size_t hasheqro_print(const uint8_t *book, size_t length, uint8_t *out);

/* Opens a book, runs its calls and returns the table after them. */
struct hasheqro_table hasheqro_figures(const uint8_t *book, size_t length);

/* Opens a book and returns the offset where an accepted description ends, or the place of the refusal. */
uint64_t hasheqro_open(const uint8_t *book, size_t length);

/* Opens a book, runs its calls and returns how many title numbers are given; 0 if the description is refused. */
uint64_t hasheqro_run(const uint8_t *book, size_t length);

/* Opens a book, runs its calls, works out all figures `times` times, and returns how often they were given: always `times`. */
uint64_t hasheqro_refigure(const uint8_t *book, size_t length, uint64_t times);

#ifdef __cplusplus
}
#endif

#endif
