/* Included before the first line of a copy of the second implementation, to build it under the product's names. driver-catches puts one
 * fault into such a copy and demands that the driver finds it. */
#ifndef STANDIN_H
#define STANDIN_H

#define second_sdx_load tkw_sdx_load
#define second_sdx_load_default tkw_sdx_load_default
#define second_acx_load tkw_acx_load
#define second_acx_load_default tkw_acx_load_default
#define second_acx_move tkw_acx_move
#define second_index_build tkw_index_build
#define second_index_move tkw_index_move

#define second_word standin_word
#define second_put_word standin_put_word
#define second_refusal standin_refusal
#define second_report standin_report
#define second_new_handler standin_new_handler
#define second_examine standin_examine
#define second_in_range standin_in_range
#define second_begin standin_begin
#define second_suits standin_suits
#define second_add_piece standin_add_piece
#define second_add_field standin_add_field
#define second_add_end standin_add_end
#define second_acceptance standin_acceptance
#define second_place standin_place
#define second_field_place standin_field_place
#define second_width standin_width
#define second_amount standin_amount
#define second_put_on standin_put_on
#define second_take_off standin_take_off
#define second_mark standin_mark
#define second_move_handler standin_move_handler

#include <stddef.h>
#include <stdint.h>

/* For the fault of that name: one byte after the other, whatever lies where. */
static inline void copy_upwards(uint8_t *to, const uint8_t *from, size_t length)
{
    for (size_t i = 0; i < length; i++)
        to[i] = from[i];
}

#endif
