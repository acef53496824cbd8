/* The C face of the static library `monitor`. Each call is total: any bytes and numbers may be handed over, as long as
   each pointer stands for as many bytes as its length says and no output overlaps an input. A refused call changes no byte. */
#ifndef ACPI_TABLES_H
#define ACPI_TABLES_H
#include <stddef.h>
#include <stdint.h>
#ifdef __cplusplus
extern "C" {
#endif

/* number: 0, or the refusal; index: the record at which it was found; length: how many bytes were written. */
typedef struct {
    uint32_t number;
    uint32_t index;
    uint64_t length;
} acpi_answer;

/* number: 0, or the refusal; length and checksum of the table: renewed, or as they came in where it is refused. */
typedef struct {
    uint32_t number;
    uint32_t length;
    uint8_t checksum;
} acpi_edit;

/* The table of a term file. */
acpi_answer acpi_encode(const uint8_t *file, size_t file_len, uint8_t *out, size_t out_len);

/* The normal-form file of a table, with the arity list of a term file that has no record. */
acpi_answer acpi_read(const uint8_t *arities, size_t arities_len, const uint8_t *table, size_t table_len, uint8_t *out, size_t out_len);

/* The normal form of a term file. */
acpi_answer acpi_normalise(const uint8_t *file, size_t file_len, uint8_t *out, size_t out_len);

/* Refusals 1 to 10 of a term file; the length is 0. */
acpi_answer acpi_check(const uint8_t *file, size_t file_len);

/* A table of so many bytes at the buffer's beginning: header and zeros. */
acpi_edit acpi_new(const uint8_t identity[31], uint32_t length, uint8_t *buffer, size_t buffer_len);

/* The piece behind the table's end. */
acpi_edit acpi_append(uint8_t *buffer, size_t buffer_len, uint32_t length, uint8_t checksum, const uint8_t *piece, size_t piece_len);

/* The piece over the table's bytes from the offset on. */
acpi_edit acpi_write(uint8_t *buffer, size_t buffer_len, uint32_t length, uint8_t checksum, uint64_t offset, const uint8_t *piece, size_t piece_len);

#ifdef __cplusplus
}
#endif
#endif
