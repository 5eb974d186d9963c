/*
 * An XML tree over lent memory: the proved calls, for C and C++.
 * Link target/staticlib/libexports.a, which `bindings/build.sh` writes. It needs memcpy and memset alone.
 *
 * A slice is two arguments, a pointer and a length in elements. The pointer is not null, also where the length is 0, and is aligned for
 * its elements; two slices of one call do not overlap, except that slices which are only read (const) may.
 *
 * A document is three slices that the caller keeps:
 *   document  its record, OXML_RECORD words: 8 limits, 10 counts, and whether the order is current. Written by calls that are accepted.
 *   memory    as many words as the limits need (docs/LAYOUT.md).
 *   scratch   4 * nodes + the entries of the three arenas + texts words. All zero after a call, unless the call answers OXML_BAD_BUFFERS.
 * A handle is one word, and the Root's is 0. An absent namespace or prefix is a slice of length 0. Bytes are UTF-8.
 *
 * A call returns 0, or the number of its refusal, after which record, memory and answer are as they were. OXML_BAD_BUFFERS is also
 * returned where the record or the slice for the answer has too few words; then nothing is touched. What every call promises
 * stands in crates/exports/specs/Contract.antt.
 */
#ifndef OXML_H
#define OXML_H

#include <stddef.h>
#include <stdint.h>

#ifdef __cplusplus
extern "C" {
#endif

/* Words of a record, and where they stand in it. */
enum {
    OXML_LIMIT_NODES = 0,
    OXML_LIMIT_CHILDREN = 1,
    OXML_LIMIT_ATTRIBUTES = 2,
    OXML_LIMIT_NAMESPACES = 3,
    OXML_LIMIT_TEXTS = 4,
    OXML_LIMIT_TEXT_BYTES = 5,
    OXML_LIMIT_NAMES = 6,
    OXML_LIMIT_NAME_BYTES = 7,
    OXML_COUNT_SLOTS = 8,
    OXML_COUNT_FREE = 9,
    OXML_COUNT_CHILDREN = 10,
    OXML_COUNT_ATTRIBUTES = 11,
    OXML_COUNT_NAMESPACES = 12,
    OXML_COUNT_TEXTS = 13,
    OXML_COUNT_FREE_TEXTS = 14,
    OXML_COUNT_TEXT_BYTES = 15,
    OXML_COUNT_NAMES = 16,
    OXML_COUNT_NAME_BYTES = 17,
    OXML_CURRENT = 18,
    OXML_RECORD = 19
};

/* Refusals. */
enum {
    OXML_OK = 0,
    OXML_NOT_UTF8 = 1,
    OXML_INVALID_NAME = 2,
    OXML_INVALID_TEXT = 3,
    OXML_BAD_BUFFERS = 4,
    OXML_DAMAGED = 5,
    OXML_STALE = 6,
    OXML_NOT_AN_ELEMENT = 7,
    OXML_NOT_A_CONTAINER = 8,
    OXML_NOT_A_CHILD = 9,
    OXML_NOT_TEXT = 10,
    OXML_NOT_REMOVABLE = 11,
    OXML_ROOT_ELEMENT_EXISTS = 12,
    OXML_WOULD_CYCLE = 13,
    OXML_FULL = 14,
    OXML_ORDER_STALE = 15
};

/* Kinds, the first word of what oxml_kind answers. */
enum {
    OXML_ROOT = 0,
    OXML_ELEMENT = 1,
    OXML_ATTRIBUTE = 2,
    OXML_TEXT = 3,
    OXML_COMMENT = 4,
    OXML_NAMESPACE = 5,
    OXML_PROCESSING_INSTRUCTION = 6,
    OXML_NO_NODE = 7
};

/* Arenas, for oxml_entries. */
enum { OXML_CHILDREN = 0, OXML_ATTRIBUTES = 1, OXML_NAMESPACES = 2 };

/* Words of a position in a walk, and where they stand in it; the four between are where the node listed last is looked for first. */
enum { OXML_POSITION_ZONE = 0, OXML_POSITION_NODE = 1, OXML_POSITION_LEFT = 6, OXML_POSITION = 7 };

/* ---- a document is started and edited ---- */

/* The Root alone, in memory that may hold anything, under the limits in the first 8 words of the record. */
uint64_t oxml_start(uint64_t *document, size_t document_len, uint64_t *memory, size_t memory_len);

/* An element behind the children of a node; its handle goes to made[0]. */
uint64_t oxml_append_element(
    uint64_t *document, size_t document_len, uint64_t *memory, size_t memory_len, uint64_t *scratch, size_t scratch_len, uint64_t parent,
    const uint8_t *ns, size_t ns_len, const uint8_t *local, size_t local_len, uint64_t *made, size_t made_len);

/* A text behind the children of a node; its handle goes to made[0]. */
uint64_t oxml_append_text(
    uint64_t *document, size_t document_len, uint64_t *memory, size_t memory_len, uint64_t *scratch, size_t scratch_len, uint64_t parent,
    const uint8_t *text, size_t text_len, uint64_t *made, size_t made_len);

/* A comment behind the children of a node; its handle goes to made[0]. */
uint64_t oxml_append_comment(
    uint64_t *document, size_t document_len, uint64_t *memory, size_t memory_len, uint64_t *scratch, size_t scratch_len, uint64_t parent,
    const uint8_t *text, size_t text_len, uint64_t *made, size_t made_len);

/* A processing instruction behind the children of a node; its handle goes to made[0]. */
uint64_t oxml_append_pi(
    uint64_t *document, size_t document_len, uint64_t *memory, size_t memory_len, uint64_t *scratch, size_t scratch_len, uint64_t parent,
    const uint8_t *target, size_t target_len, const uint8_t *content, size_t content_len, uint64_t *made, size_t made_len);

/* Another text for a text node. */
uint64_t oxml_set_text(
    uint64_t *document, size_t document_len, uint64_t *memory, size_t memory_len, uint64_t *scratch, size_t scratch_len, uint64_t id,
    const uint8_t *text, size_t text_len);

/* The value of an attribute, which is made where the element has none of the name. */
uint64_t oxml_set_attribute(
    uint64_t *document, size_t document_len, uint64_t *memory, size_t memory_len, uint64_t *scratch, size_t scratch_len, uint64_t element,
    const uint8_t *ns, size_t ns_len, const uint8_t *local, size_t local_len, const uint8_t *value, size_t value_len);

/* An attribute goes; found[0] is 1 where the element had it, else 0. */
uint64_t oxml_remove_attribute(
    uint64_t *document, size_t document_len, uint64_t *memory, size_t memory_len, uint64_t *scratch, size_t scratch_len, uint64_t element,
    const uint8_t *ns, size_t ns_len, const uint8_t *local, size_t local_len, uint64_t *found, size_t found_len);

/* The URI of a prefix, for which a node is made where the element has none; the handle of its node goes to made[0]. An empty URI undoes
 * the default namespace, whose prefix is empty; with any other prefix it is refused, 2. */
uint64_t oxml_declare_namespace(
    uint64_t *document, size_t document_len, uint64_t *memory, size_t memory_len, uint64_t *scratch, size_t scratch_len, uint64_t element,
    const uint8_t *prefix, size_t prefix_len, const uint8_t *uri, size_t uri_len, uint64_t *made, size_t made_len);

/* A node goes, with all below it. */
uint64_t oxml_remove(
    uint64_t *document, size_t document_len, uint64_t *memory, size_t memory_len, uint64_t *scratch, size_t scratch_len, uint64_t id);

/* A node leaves its parent, and stays. */
uint64_t oxml_detach(
    uint64_t *document, size_t document_len, uint64_t *memory, size_t memory_len, uint64_t *scratch, size_t scratch_len, uint64_t id);

/* A node goes behind the children of another. */
uint64_t oxml_reparent(
    uint64_t *document, size_t document_len, uint64_t *memory, size_t memory_len, uint64_t *scratch, size_t scratch_len, uint64_t child,
    uint64_t parent);

/* A node goes among the children of another, at that index once it is unlinked, or at the end. */
uint64_t oxml_insert_at(
    uint64_t *document, size_t document_len, uint64_t *memory, size_t memory_len, uint64_t *scratch, size_t scratch_len, uint64_t parent,
    uint64_t at, uint64_t child);

/* Document order is made current; oxml_order_words shows it. */
uint64_t oxml_document_order(
    uint64_t *document, size_t document_len, uint64_t *memory, size_t memory_len, uint64_t *scratch, size_t scratch_len);

/* The arenas are rebuilt without gaps, and document order is made current. */
uint64_t oxml_compact(uint64_t *document, size_t document_len, uint64_t *memory, size_t memory_len, uint64_t *scratch, size_t scratch_len);

/* ---- a document is read: scratch is not needed, and a handle that is stale shows nothing ---- */

/* answer[0] is the handle of the Root. */
uint64_t oxml_root(
    const uint64_t *document, size_t document_len, const uint64_t *memory, size_t memory_len, uint64_t *answer, size_t answer_len);

/* answer is 1 and the handle of the parent, or 0 and 0. */
uint64_t oxml_parent(
    const uint64_t *document, size_t document_len, const uint64_t *memory, size_t memory_len, uint64_t id,
    uint64_t *answer, size_t answer_len);

/* answer is 1 and the handle of the root element, or 0 and 0. */
uint64_t oxml_root_element(
    const uint64_t *document, size_t document_len, const uint64_t *memory, size_t memory_len, uint64_t *answer, size_t answer_len);

/* answer[0] is 1 for an element, 0 for anything else. */
uint64_t oxml_is_element(
    const uint64_t *document, size_t document_len, const uint64_t *memory, size_t memory_len, uint64_t id,
    uint64_t *answer, size_t answer_len);

/* answer is 1 and the position in document order, or 0 and 0 for a node that has none. OXML_ORDER_STALE while the order is not current. */
uint64_t oxml_order_key(
    const uint64_t *document, size_t document_len, const uint64_t *memory, size_t memory_len, uint64_t id,
    uint64_t *answer, size_t answer_len);

/* answer is the start and the length of the list of children; oxml_entries shows it in arena OXML_CHILDREN. */
uint64_t oxml_children(
    const uint64_t *document, size_t document_len, const uint64_t *memory, size_t memory_len, uint64_t id,
    uint64_t *answer, size_t answer_len);

/* answer is the start and the length of the list of attributes; arena OXML_ATTRIBUTES. */
uint64_t oxml_attribute_nodes(
    const uint64_t *document, size_t document_len, const uint64_t *memory, size_t memory_len, uint64_t id,
    uint64_t *answer, size_t answer_len);

/* answer is the start and the length of the list of namespaces; arena OXML_NAMESPACES. */
uint64_t oxml_namespace_nodes(
    const uint64_t *document, size_t document_len, const uint64_t *memory, size_t memory_len, uint64_t id,
    uint64_t *answer, size_t answer_len);

/* answer is 8 words: the kind, the name number, two texts for oxml_text_bytes (0 for none; value, text, or prefix and URI, or target and
 * content), and start and length of the lists of attributes and of namespaces. A word that the kind has no use for is 0. */
uint64_t oxml_kind(
    const uint64_t *document, size_t document_len, const uint64_t *memory, size_t memory_len, uint64_t id,
    uint64_t *answer, size_t answer_len);

/* answer[0] is 1 where the number has a name, whose parts oxml_namespace_bytes and oxml_local_bytes show, else 0. */
uint64_t oxml_name(
    const uint64_t *document, size_t document_len, const uint64_t *memory, size_t memory_len, uint64_t number,
    uint64_t *answer, size_t answer_len);

/* The handles of all live nodes go to list, which has room for as many as the node limit (else OXML_BAD_BUFFERS), and their count to answer[0]. */
uint64_t oxml_nodes(
    const uint64_t *document, size_t document_len, const uint64_t *memory, size_t memory_len, uint64_t *list, size_t list_len,
    uint64_t *answer, size_t answer_len);

/* ---- a walk lists the nodes below a zone in document order, without attributes and namespaces, the zone left out ----
 * A position is OXML_POSITION words that the caller keeps: the zone, the node listed last, four hints, and how many nodes may be listed yet. Any words are a
 * position. After an edit, from a made-up position or in damaged memory a walk lists only nodes that resolve, as many as the node limit at most. */

/* position is before the first node below the zone; a stale zone has none. */
uint64_t oxml_descendants_of(
    const uint64_t *document, size_t document_len, const uint64_t *memory, size_t memory_len, uint64_t zone,
    uint64_t *position, size_t position_len);

/* answer is 1 and the handle of the next node, and position is there; or 0 and 0 at the end, and position is as it was. */
uint64_t oxml_walk_next(
    const uint64_t *document, size_t document_len, const uint64_t *memory, size_t memory_len, uint64_t *position, size_t position_len,
    uint64_t *answer, size_t answer_len);

/* The handles of all nodes below a zone go to list, which has room for as many as the node limit (else OXML_BAD_BUFFERS), and their count to answer[0];
 * the words of list past them are as they were. */
uint64_t oxml_list_below(
    const uint64_t *document, size_t document_len, const uint64_t *memory, size_t memory_len, uint64_t zone, uint64_t *list, size_t list_len,
    uint64_t *answer, size_t answer_len);

/* ---- words are copied out: how many there are is returned; they are written to the front of out where they fit, and else none is ---- */

/* The handles of a list, by its arena, start and length. */
uint64_t oxml_entries(
    const uint64_t *document, size_t document_len, const uint64_t *memory, size_t memory_len, uint64_t arena, uint64_t start, uint64_t len,
    uint64_t *out, size_t out_len);

/* The bytes of a text that oxml_kind told, one a word. */
uint64_t oxml_text_bytes(
    const uint64_t *document, size_t document_len, const uint64_t *memory, size_t memory_len, uint64_t text,
    uint64_t *out, size_t out_len);

/* The bytes of the namespace of a name, one a word; none for no namespace. */
uint64_t oxml_namespace_bytes(
    const uint64_t *document, size_t document_len, const uint64_t *memory, size_t memory_len, uint64_t number,
    uint64_t *out, size_t out_len);

/* The bytes of the local part of a name, one a word. */
uint64_t oxml_local_bytes(
    const uint64_t *document, size_t document_len, const uint64_t *memory, size_t memory_len, uint64_t number,
    uint64_t *out, size_t out_len);

/* A word for each slot made: the position in document order of its node, or 4294967295. */
uint64_t oxml_order_words(
    const uint64_t *document, size_t document_len, const uint64_t *memory, size_t memory_len, uint64_t *out, size_t out_len);

#ifdef __cplusplus
}
#endif

#endif
