/* The second implementation: the seven calls of include/tekoweapa.h once more, written in C from documents 01 and 02 alone. It shares no code with
 * the product, and is kept plain rather than fast, to be read beside the document. compare.c runs both and compares them. */
#ifndef SECOND_H
#define SECOND_H

#include <stddef.h>
#include <stdint.h>

uint32_t second_sdx_load(const uint8_t *file, size_t file_length, uint32_t low, uint32_t high,
                         const uint8_t *known_names, size_t known_names_length,
                         const uint8_t *known_addresses, size_t known_addresses_length,
                         uint8_t *memory, size_t memory_length, uint8_t *map, size_t map_length,
                         uint8_t *new_names, size_t new_names_length, uint8_t *new_addresses, size_t new_addresses_length,
                         uint8_t *answer, size_t answer_length);

uint32_t second_sdx_load_default(const uint8_t *file, size_t file_length,
                                 const uint8_t *known_names, size_t known_names_length,
                                 const uint8_t *known_addresses, size_t known_addresses_length,
                                 uint8_t *memory, size_t memory_length, uint8_t *map, size_t map_length,
                                 uint8_t *new_names, size_t new_names_length, uint8_t *new_addresses, size_t new_addresses_length,
                                 uint8_t *answer, size_t answer_length);

uint32_t second_acx_load(uint32_t form, const uint8_t *file, size_t file_length, uint32_t main_base, uint32_t zero_base,
                         uint8_t *memory, size_t memory_length, uint8_t *map, size_t map_length,
                         uint8_t *answer, size_t answer_length);

uint32_t second_acx_load_default(uint32_t form, const uint8_t *file, size_t file_length,
                                 uint8_t *memory, size_t memory_length, uint8_t *map, size_t map_length,
                                 uint8_t *answer, size_t answer_length);

uint32_t second_acx_move(uint32_t form, const uint8_t *file, size_t file_length, uint32_t old_main, uint32_t old_zero,
                         uint32_t new_main, uint32_t new_zero,
                         uint8_t *memory, size_t memory_length, uint8_t *map, size_t map_length,
                         uint8_t *scratch, size_t scratch_length, uint8_t *answer, size_t answer_length);

uint32_t second_index_build(uint32_t form, const uint8_t *file, size_t file_length, uint32_t main_base, uint32_t zero_base,
                            uint8_t *map, size_t map_length, uint8_t *index, size_t index_length, uint8_t *answer, size_t answer_length);

uint32_t second_index_move(const uint8_t *index, size_t index_length, uint32_t old_main, uint32_t old_zero,
                           uint32_t new_main, uint32_t new_zero,
                           uint8_t *memory, size_t memory_length, uint8_t *map, size_t map_length,
                           uint8_t *scratch, size_t scratch_length, uint8_t *answer, size_t answer_length);

#endif
