/*
 * The calls of the library Yokefathom for a host in C, or in Java by JNI or FFM: the reference graph of a Java heap dump.
 *
 * Every call is proved to end and to stay inside what it is lent, and asks nothing of its caller but this: a column is a pointer and its
 * number of entries, no pointer is null (an empty column has length 0 and any other pointer), and columns that a call writes overlap no others.
 *
 * An answer begins with how many numbers are said. The first of those is 0, with values behind it; or it is a refusal's number, with the place
 * of the fault behind it. The rest is zero. A call that returns a number has its own rule, which docs/QUESTIONS.md gives.
 *
 * Link with the archive that `sh tools/staticlib yokefathom libyokefathom.a` makes. host/examples/worked.c is an example.
 */
#ifndef YOKEFATHOM_H
#define YOKEFATHOM_H

#include <stdbool.h>
#include <stddef.h>
#include <stdint.h>

#ifdef __cplusplus
extern "C" {
#endif

/* Label flag: the edge is an array element, the low bits are its index. */
#define YOKEFATHOM_ARRAY_ELEMENT UINT32_C(2147483648)
/* Label of the edge from a class object to its class loader. */
#define YOKEFATHOM_LOADER UINT32_C(2147483647)

/* Why a call refuses. */
enum yokefathom_refusal {
    YOKEFATHOM_LENGTHS = 1,
    YOKEFATHOM_LIMIT = 2,
    YOKEFATHOM_OBJECT = 3,
    YOKEFATHOM_CLASS = 4,
    YOKEFATHOM_COPIED = 5,
    YOKEFATHOM_SPAN = 6,
    YOKEFATHOM_ROOT = 7,
    YOKEFATHOM_PLACES = 8,
    YOKEFATHOM_ROOM = 9,
    YOKEFATHOM_PARTS = 10,
    YOKEFATHOM_INDEX = 11,
    YOKEFATHOM_COLUMNS = 12,
};

/* One slot: where in a body the id stands, the name of the field, 1 if the reference is kept by the policy alone. */
struct yokefathom_slot_row {
    uint32_t offset;
    uint32_t label;
    uint8_t weak;
};

/* The calls, as `src/ffi.rs` declares them. */

/* The graph of an input by the copied route, in the columns lent, with its account; or a refusal, and all of them zero. */
void yokefathom_build_copied(
    const uint64_t *ids, size_t ids_len,
    const uint8_t *kinds, size_t kinds_len,
    const uint32_t *classes, size_t classes_len,
    const uint32_t *lengths, size_t lengths_len,
    const uint64_t *class_ids, size_t class_ids_len,
    const uint64_t *loaders, size_t loaders_len,
    const uint8_t *dumped, size_t dumped_len,
    const uint8_t *class_kinds, size_t class_kinds_len,
    const uint32_t *slot_starts, size_t slot_starts_len,
    const uint32_t *slot_ends, size_t slot_ends_len,
    const uint32_t *static_starts, size_t static_starts_len,
    const uint32_t *static_ends, size_t static_ends_len,
    const uint32_t *slot_offsets, size_t slot_offsets_len,
    const uint32_t *slot_labels, size_t slot_labels_len,
    const uint8_t *slot_weak, size_t slot_weak_len,
    const uint32_t *static_names, size_t static_names_len,
    const uint8_t *static_types, size_t static_types_len,
    const uint64_t *static_values, size_t static_values_len,
    size_t names,
    const uint32_t *codes, size_t codes_len,
    const uint64_t *escape_places, size_t escape_places_len,
    const uint64_t *escape_ids, size_t escape_ids_len,
    uint64_t base,
    const uint32_t *starts, size_t starts_len,
    const uint32_t *roots, size_t roots_len,
    bool keep_soft,
    bool keep_weak,
    uint32_t *targets, size_t targets_len,
    uint32_t *labels, size_t labels_len,
    uint32_t *weak_from, size_t weak_from_len,
    uint32_t *weak_to, size_t weak_to_len,
    uint32_t *roots_out, size_t roots_out_len,
    uint64_t *working, size_t working_len,
    uint64_t account[4][3],
    uint64_t *bases, size_t bases_len,
    uint16_t *short_, size_t short_len,
    uint32_t *long_at, size_t long_at_len,
    uint64_t *long_value, size_t long_value_len,
    uint32_t *fields, size_t fields_len,
    uint16_t *table, size_t table_len,
    uint64_t *escape_at, size_t escape_at_len,
    uint32_t *escape_label, size_t escape_label_len,
    uint16_t *edge_codes, size_t edge_codes_len,
    uint64_t *counting, size_t counting_len,
    uint64_t *ranking, size_t ranking_len,
    uint64_t answer[9]);

/* The graph of an input by the raw route, in the columns lent, with its account; or a refusal, and all of them zero. */
void yokefathom_build_raw(
    const uint64_t *ids, size_t ids_len,
    const uint8_t *kinds, size_t kinds_len,
    const uint32_t *classes, size_t classes_len,
    const uint32_t *lengths, size_t lengths_len,
    const uint64_t *class_ids, size_t class_ids_len,
    const uint64_t *loaders, size_t loaders_len,
    const uint8_t *dumped, size_t dumped_len,
    const uint8_t *class_kinds, size_t class_kinds_len,
    const uint32_t *slot_starts, size_t slot_starts_len,
    const uint32_t *slot_ends, size_t slot_ends_len,
    const uint32_t *static_starts, size_t static_starts_len,
    const uint32_t *static_ends, size_t static_ends_len,
    const uint32_t *slot_offsets, size_t slot_offsets_len,
    const uint32_t *slot_labels, size_t slot_labels_len,
    const uint8_t *slot_weak, size_t slot_weak_len,
    const uint32_t *static_names, size_t static_names_len,
    const uint8_t *static_types, size_t static_types_len,
    const uint64_t *static_values, size_t static_values_len,
    size_t names,
    const uint8_t *bytes, size_t bytes_len,
    size_t size,
    const uint64_t *starts, size_t starts_len,
    const uint32_t *bodies, size_t bodies_len,
    const uint32_t *roots, size_t roots_len,
    bool keep_soft,
    bool keep_weak,
    uint32_t *targets, size_t targets_len,
    uint32_t *labels, size_t labels_len,
    uint32_t *weak_from, size_t weak_from_len,
    uint32_t *weak_to, size_t weak_to_len,
    uint32_t *roots_out, size_t roots_out_len,
    uint64_t *working, size_t working_len,
    uint64_t account[4][3],
    uint64_t *bases, size_t bases_len,
    uint16_t *short_, size_t short_len,
    uint32_t *long_at, size_t long_at_len,
    uint64_t *long_value, size_t long_value_len,
    uint32_t *fields, size_t fields_len,
    uint16_t *table, size_t table_len,
    uint64_t *escape_at, size_t escape_at_len,
    uint32_t *escape_label, size_t escape_label_len,
    uint16_t *edge_codes, size_t edge_codes_len,
    uint64_t *counting, size_t counting_len,
    uint64_t *ranking, size_t ranking_len,
    uint64_t answer[9]);

/* The coded columns of the graph whose plain columns these are, with the used lengths; or the refusal, and all of them zero. */
void yokefathom_from_parts(
    const uint64_t *class_ids, size_t class_ids_len,
    const uint64_t *loaders, size_t loaders_len,
    const uint8_t *dumped, size_t dumped_len,
    const uint8_t *class_kinds, size_t class_kinds_len,
    const uint32_t *slot_starts, size_t slot_starts_len,
    const uint32_t *slot_ends, size_t slot_ends_len,
    const uint32_t *static_starts, size_t static_starts_len,
    const uint32_t *static_ends, size_t static_ends_len,
    const uint32_t *slot_offsets, size_t slot_offsets_len,
    const uint32_t *slot_labels, size_t slot_labels_len,
    const uint8_t *slot_weak, size_t slot_weak_len,
    const uint32_t *static_names, size_t static_names_len,
    const uint8_t *static_types, size_t static_types_len,
    const uint64_t *static_values, size_t static_values_len,
    size_t names,
    const uint64_t *offsets, size_t offsets_len,
    const uint32_t *targets, size_t targets_len,
    const uint32_t *labels, size_t labels_len,
    const uint32_t *weak_from, size_t weak_from_len,
    const uint32_t *weak_to, size_t weak_to_len,
    const uint32_t *roots, size_t roots_len,
    uint64_t dangling,
    uint64_t *bases, size_t bases_len,
    uint16_t *short_, size_t short_len,
    uint32_t *long_at, size_t long_at_len,
    uint64_t *long_value, size_t long_value_len,
    uint32_t *fields, size_t fields_len,
    uint16_t *table, size_t table_len,
    uint64_t *escape_at, size_t escape_at_len,
    uint32_t *escape_label, size_t escape_label_len,
    uint16_t *edge_codes, size_t edge_codes_len,
    uint64_t *counting, size_t counting_len,
    uint64_t *ranking, size_t ranking_len,
    uint64_t answer[9]);

/* The rows written, zeros behind them; or ROOM, and all three columns zero. */
void yokefathom_fill_rows(
    const struct yokefathom_slot_row *rows, size_t rows_len,
    uint32_t *offsets, size_t offsets_len,
    uint32_t *labels, size_t labels_len,
    uint8_t *weak, size_t weak_len,
    uint64_t answer[4]);

/* The same of rows that are lent as columns. The shortest says how many rows there are, so a host lends columns of one length. */
void yokefathom_fill_columns(
    const uint32_t *from_offsets, size_t from_offsets_len,
    const uint32_t *from_labels, size_t from_labels_len,
    const uint8_t *from_weak, size_t from_weak_len,
    uint32_t *offsets, size_t offsets_len,
    uint32_t *labels, size_t labels_len,
    uint8_t *weak, size_t weak_len,
    uint64_t answer[4]);

/* Where the edges of an object sit in the target column. */
void yokefathom_span(
    size_t object,
    const uint64_t *bases, size_t bases_len,
    const uint16_t *short_, size_t short_len,
    const uint32_t *long_at, size_t long_at_len,
    const uint64_t *long_value, size_t long_value_len,
    const uint16_t *edge_codes, size_t edge_codes_len,
    const uint32_t *targets, size_t targets_len,
    uint64_t answer[4]);

/* How many edges an object has. */
void yokefathom_edge_count(
    size_t object,
    const uint64_t *bases, size_t bases_len,
    const uint16_t *short_, size_t short_len,
    const uint32_t *long_at, size_t long_at_len,
    const uint64_t *long_value, size_t long_value_len,
    const uint16_t *edge_codes, size_t edge_codes_len,
    const uint32_t *targets, size_t targets_len,
    uint64_t answer[4]);

/* The rows of an object's weak pairs. */
void yokefathom_weak_referents(
    size_t object,
    const uint16_t *short_, size_t short_len,
    const uint32_t *weak_from, size_t weak_from_len,
    const uint32_t *weak_to, size_t weak_to_len,
    uint64_t answer[4]);

/* The field label of an edge of an object, or just `ARRAY_ELEMENT` for an element. */
void yokefathom_coarse_label(
    size_t object,
    size_t edge,
    const uint64_t *bases, size_t bases_len,
    const uint16_t *short_, size_t short_len,
    const uint32_t *long_at, size_t long_at_len,
    const uint64_t *long_value, size_t long_value_len,
    const uint16_t *edge_codes, size_t edge_codes_len,
    const uint32_t *targets, size_t targets_len,
    const uint32_t *fields, size_t fields_len,
    const uint64_t *escape_at, size_t escape_at_len,
    const uint32_t *escape_label, size_t escape_label_len,
    uint64_t answer[4]);

/* The label of an edge of an object, an element's with its index. */
void yokefathom_exact_label(
    size_t object,
    size_t edge,
    const uint64_t *bases, size_t bases_len,
    const uint16_t *short_, size_t short_len,
    const uint32_t *long_at, size_t long_at_len,
    const uint64_t *long_value, size_t long_value_len,
    const uint16_t *edge_codes, size_t edge_codes_len,
    const uint32_t *targets, size_t targets_len,
    const uint32_t *fields, size_t fields_len,
    const uint64_t *escape_at, size_t escape_at_len,
    const uint32_t *escape_label, size_t escape_label_len,
    uint64_t answer[4]);

/* The exact label of an object's first edge to a target. */
void yokefathom_label_of(
    size_t object,
    uint32_t target,
    const uint64_t *bases, size_t bases_len,
    const uint16_t *short_, size_t short_len,
    const uint32_t *long_at, size_t long_at_len,
    const uint64_t *long_value, size_t long_value_len,
    const uint16_t *edge_codes, size_t edge_codes_len,
    const uint32_t *targets, size_t targets_len,
    const uint32_t *fields, size_t fields_len,
    const uint64_t *escape_at, size_t escape_at_len,
    const uint32_t *escape_label, size_t escape_label_len,
    uint64_t answer[4]);

/* The target of a field of an object. */
void yokefathom_field(
    size_t object,
    uint32_t label,
    const uint64_t *bases, size_t bases_len,
    const uint16_t *short_, size_t short_len,
    const uint32_t *long_at, size_t long_at_len,
    const uint64_t *long_value, size_t long_value_len,
    const uint16_t *edge_codes, size_t edge_codes_len,
    const uint32_t *targets, size_t targets_len,
    const uint32_t *fields, size_t fields_len,
    const uint64_t *escape_at, size_t escape_at_len,
    const uint32_t *escape_label, size_t escape_label_len,
    uint64_t answer[4]);

/* The target of a field of an object, or where it has none its smallest weak target. */
void yokefathom_referent(
    size_t object,
    uint32_t label,
    const uint64_t *bases, size_t bases_len,
    const uint16_t *short_, size_t short_len,
    const uint32_t *long_at, size_t long_at_len,
    const uint64_t *long_value, size_t long_value_len,
    const uint16_t *edge_codes, size_t edge_codes_len,
    const uint32_t *targets, size_t targets_len,
    const uint32_t *fields, size_t fields_len,
    const uint64_t *escape_at, size_t escape_at_len,
    const uint32_t *escape_label, size_t escape_label_len,
    const uint32_t *weak_from, size_t weak_from_len,
    const uint32_t *weak_to, size_t weak_to_len,
    uint64_t answer[4]);

/* All edges of an object, their targets and exact labels from the front of the columns lent. Zeros behind them; or a refusal, and both columns zero. */
void yokefathom_object_edges(
    size_t object,
    const uint64_t *bases, size_t bases_len,
    const uint16_t *short_, size_t short_len,
    const uint32_t *long_at, size_t long_at_len,
    const uint64_t *long_value, size_t long_value_len,
    const uint16_t *edge_codes, size_t edge_codes_len,
    const uint32_t *targets, size_t targets_len,
    const uint32_t *fields, size_t fields_len,
    const uint64_t *escape_at, size_t escape_at_len,
    const uint32_t *escape_label, size_t escape_label_len,
    uint32_t *own_targets, size_t own_targets_len,
    uint32_t *own_labels, size_t own_labels_len,
    uint64_t answer[4]);

/* A field of each object of a list: targets and marks from the front of the columns lent, zeros behind them; or a refusal at a position, and both columns zero. */
void yokefathom_field_of_each(
    const uint32_t *objects, size_t objects_len,
    uint32_t label,
    const uint64_t *bases, size_t bases_len,
    const uint16_t *short_, size_t short_len,
    const uint32_t *long_at, size_t long_at_len,
    const uint64_t *long_value, size_t long_value_len,
    const uint16_t *edge_codes, size_t edge_codes_len,
    const uint32_t *targets, size_t targets_len,
    const uint32_t *fields, size_t fields_len,
    const uint64_t *escape_at, size_t escape_at_len,
    const uint32_t *escape_label, size_t escape_label_len,
    uint32_t *own_targets, size_t own_targets_len,
    uint8_t *found, size_t found_len,
    uint64_t answer[4]);

/* For each object the objects that refer to it and the places of their edges, rising, with blocked offsets; or a refusal, and all columns lent zero. */
void yokefathom_invert(
    const uint64_t *bases, size_t bases_len,
    const uint16_t *short_, size_t short_len,
    const uint32_t *long_at, size_t long_at_len,
    const uint64_t *long_value, size_t long_value_len,
    const uint16_t *edge_codes, size_t edge_codes_len,
    const uint32_t *targets, size_t targets_len,
    const uint32_t *fields, size_t fields_len,
    const uint64_t *escape_at, size_t escape_at_len,
    const uint32_t *escape_label, size_t escape_label_len,
    uint32_t *sources, size_t sources_len,
    uint32_t *places, size_t places_len,
    uint64_t *in_bases, size_t in_bases_len,
    uint16_t *in_short, size_t in_short_len,
    uint32_t *in_long_at, size_t in_long_at_len,
    uint64_t *in_long_value, size_t in_long_value_len,
    uint64_t *working, size_t working_len,
    uint64_t answer[4]);

/* Where the entries of an object sit among the sources and the places. */
void yokefathom_in_span(
    size_t object,
    const uint32_t *sources, size_t sources_len,
    const uint32_t *places, size_t places_len,
    const uint64_t *in_bases, size_t in_bases_len,
    const uint16_t *in_short, size_t in_short_len,
    const uint32_t *in_long_at, size_t in_long_at_len,
    const uint64_t *in_long_value, size_t in_long_value_len,
    uint64_t answer[4]);

/* How many edges go to an object. */
void yokefathom_in_degree(
    size_t object,
    const uint32_t *sources, size_t sources_len,
    const uint32_t *places, size_t places_len,
    const uint64_t *in_bases, size_t in_bases_len,
    const uint16_t *in_short, size_t in_short_len,
    const uint32_t *in_long_at, size_t in_long_at_len,
    const uint64_t *in_long_value, size_t in_long_value_len,
    uint64_t answer[4]);

/* An entry of an object: who refers to it, and the place of that edge in the target column. */
void yokefathom_entry_at(
    size_t object,
    size_t k,
    const uint32_t *sources, size_t sources_len,
    const uint32_t *places, size_t places_len,
    const uint64_t *in_bases, size_t in_bases_len,
    const uint16_t *in_short, size_t in_short_len,
    const uint32_t *in_long_at, size_t in_long_at_len,
    const uint64_t *in_long_value, size_t in_long_value_len,
    uint64_t answer[4]);

/* Where the edges of an object sit, by the short offsets alone. */
uint64_t yokefathom_lean_span(
    size_t object,
    const uint64_t *bases, size_t bases_len,
    const uint16_t *short_, size_t short_len,
    size_t codes,
    size_t targets);

/* The exact label of an object's first edge to a target, without long offsets and escapes. */
uint64_t yokefathom_lean_label_of(
    size_t object,
    uint32_t target,
    const uint64_t *bases, size_t bases_len,
    const uint16_t *short_, size_t short_len,
    const uint16_t *edge_codes, size_t edge_codes_len,
    const uint32_t *targets, size_t targets_len,
    const uint32_t *fields, size_t fields_len);

/* The target of a field of an object, without long offsets and escapes. */
uint64_t yokefathom_lean_field(
    size_t object,
    uint32_t label,
    const uint64_t *bases, size_t bases_len,
    const uint16_t *short_, size_t short_len,
    const uint16_t *edge_codes, size_t edge_codes_len,
    const uint32_t *targets, size_t targets_len,
    const uint32_t *fields, size_t fields_len);

/* The target of a field of an object, or its smallest weak target, without long offsets and escapes. */
uint64_t yokefathom_lean_referent(
    size_t object,
    uint32_t label,
    const uint64_t *bases, size_t bases_len,
    const uint16_t *short_, size_t short_len,
    const uint16_t *edge_codes, size_t edge_codes_len,
    const uint32_t *targets, size_t targets_len,
    const uint32_t *fields, size_t fields_len,
    const uint32_t *weak_from, size_t weak_from_len,
    const uint32_t *weak_to, size_t weak_to_len);

/* All edges of an object, without long offsets and escapes. */
uint64_t yokefathom_lean_object_edges(
    size_t object,
    const uint64_t *bases, size_t bases_len,
    const uint16_t *short_, size_t short_len,
    const uint16_t *edge_codes, size_t edge_codes_len,
    const uint32_t *targets, size_t targets_len,
    const uint32_t *fields, size_t fields_len,
    uint32_t *own_targets, size_t own_targets_len,
    uint32_t *own_labels, size_t own_labels_len);

#ifdef __cplusplus
}
#endif

#endif
