//! The exported calls as bindings/oxml.h declares them: a slice is a pointer and a length.

unsafe extern "C" {
    pub(crate) fn oxml_start(record: *mut u64, record_len: usize, memory: *mut u64, memory_len: usize) -> u64;
    pub(crate) fn oxml_append_element(
        record: *mut u64,
        record_len: usize,
        memory: *mut u64,
        memory_len: usize,
        scratch: *mut u64,
        scratch_len: usize,
        parent: u64,
        namespace: *const u8,
        namespace_len: usize,
        local: *const u8,
        local_len: usize,
        made: *mut u64,
        made_len: usize,
    ) -> u64;
    pub(crate) fn oxml_append_text(
        record: *mut u64,
        record_len: usize,
        memory: *mut u64,
        memory_len: usize,
        scratch: *mut u64,
        scratch_len: usize,
        parent: u64,
        text: *const u8,
        text_len: usize,
        made: *mut u64,
        made_len: usize,
    ) -> u64;
    pub(crate) fn oxml_append_comment(
        record: *mut u64,
        record_len: usize,
        memory: *mut u64,
        memory_len: usize,
        scratch: *mut u64,
        scratch_len: usize,
        parent: u64,
        text: *const u8,
        text_len: usize,
        made: *mut u64,
        made_len: usize,
    ) -> u64;
    pub(crate) fn oxml_append_pi(
        record: *mut u64,
        record_len: usize,
        memory: *mut u64,
        memory_len: usize,
        scratch: *mut u64,
        scratch_len: usize,
        parent: u64,
        target: *const u8,
        target_len: usize,
        content: *const u8,
        content_len: usize,
        made: *mut u64,
        made_len: usize,
    ) -> u64;
    pub(crate) fn oxml_set_text(
        record: *mut u64,
        record_len: usize,
        memory: *mut u64,
        memory_len: usize,
        scratch: *mut u64,
        scratch_len: usize,
        id: u64,
        text: *const u8,
        text_len: usize,
    ) -> u64;
    pub(crate) fn oxml_set_attribute(
        record: *mut u64,
        record_len: usize,
        memory: *mut u64,
        memory_len: usize,
        scratch: *mut u64,
        scratch_len: usize,
        element: u64,
        namespace: *const u8,
        namespace_len: usize,
        local: *const u8,
        local_len: usize,
        value: *const u8,
        value_len: usize,
    ) -> u64;
    pub(crate) fn oxml_remove_attribute(
        record: *mut u64,
        record_len: usize,
        memory: *mut u64,
        memory_len: usize,
        scratch: *mut u64,
        scratch_len: usize,
        element: u64,
        namespace: *const u8,
        namespace_len: usize,
        local: *const u8,
        local_len: usize,
        found: *mut u64,
        found_len: usize,
    ) -> u64;
    pub(crate) fn oxml_declare_namespace(
        record: *mut u64,
        record_len: usize,
        memory: *mut u64,
        memory_len: usize,
        scratch: *mut u64,
        scratch_len: usize,
        element: u64,
        prefix: *const u8,
        prefix_len: usize,
        uri: *const u8,
        uri_len: usize,
        made: *mut u64,
        made_len: usize,
    ) -> u64;
    pub(crate) fn oxml_remove(
        record: *mut u64,
        record_len: usize,
        memory: *mut u64,
        memory_len: usize,
        scratch: *mut u64,
        scratch_len: usize,
        id: u64,
    ) -> u64;
    pub(crate) fn oxml_detach(
        record: *mut u64,
        record_len: usize,
        memory: *mut u64,
        memory_len: usize,
        scratch: *mut u64,
        scratch_len: usize,
        id: u64,
    ) -> u64;
    pub(crate) fn oxml_reparent(
        record: *mut u64,
        record_len: usize,
        memory: *mut u64,
        memory_len: usize,
        scratch: *mut u64,
        scratch_len: usize,
        child: u64,
        parent: u64,
    ) -> u64;
    pub(crate) fn oxml_insert_at(
        record: *mut u64,
        record_len: usize,
        memory: *mut u64,
        memory_len: usize,
        scratch: *mut u64,
        scratch_len: usize,
        parent: u64,
        at: u64,
        child: u64,
    ) -> u64;
    pub(crate) fn oxml_document_order(
        record: *mut u64,
        record_len: usize,
        memory: *mut u64,
        memory_len: usize,
        scratch: *mut u64,
        scratch_len: usize,
    ) -> u64;
    pub(crate) fn oxml_compact(
        record: *mut u64,
        record_len: usize,
        memory: *mut u64,
        memory_len: usize,
        scratch: *mut u64,
        scratch_len: usize,
    ) -> u64;
    pub(crate) fn oxml_root(
        record: *const u64,
        record_len: usize,
        memory: *const u64,
        memory_len: usize,
        answer: *mut u64,
        answer_len: usize,
    ) -> u64;
    pub(crate) fn oxml_kind(
        record: *const u64,
        record_len: usize,
        memory: *const u64,
        memory_len: usize,
        id: u64,
        answer: *mut u64,
        answer_len: usize,
    ) -> u64;
    pub(crate) fn oxml_parent(
        record: *const u64,
        record_len: usize,
        memory: *const u64,
        memory_len: usize,
        id: u64,
        answer: *mut u64,
        answer_len: usize,
    ) -> u64;
    pub(crate) fn oxml_children(
        record: *const u64,
        record_len: usize,
        memory: *const u64,
        memory_len: usize,
        id: u64,
        answer: *mut u64,
        answer_len: usize,
    ) -> u64;
    pub(crate) fn oxml_root_element(
        record: *const u64,
        record_len: usize,
        memory: *const u64,
        memory_len: usize,
        answer: *mut u64,
        answer_len: usize,
    ) -> u64;
    pub(crate) fn oxml_is_element(
        record: *const u64,
        record_len: usize,
        memory: *const u64,
        memory_len: usize,
        id: u64,
        answer: *mut u64,
        answer_len: usize,
    ) -> u64;
    pub(crate) fn oxml_name(
        record: *const u64,
        record_len: usize,
        memory: *const u64,
        memory_len: usize,
        number: u64,
        answer: *mut u64,
        answer_len: usize,
    ) -> u64;
    pub(crate) fn oxml_attribute_nodes(
        record: *const u64,
        record_len: usize,
        memory: *const u64,
        memory_len: usize,
        id: u64,
        answer: *mut u64,
        answer_len: usize,
    ) -> u64;
    pub(crate) fn oxml_namespace_nodes(
        record: *const u64,
        record_len: usize,
        memory: *const u64,
        memory_len: usize,
        id: u64,
        answer: *mut u64,
        answer_len: usize,
    ) -> u64;
    pub(crate) fn oxml_nodes(
        record: *const u64,
        record_len: usize,
        memory: *const u64,
        memory_len: usize,
        out: *mut u64,
        out_len: usize,
        answer: *mut u64,
        answer_len: usize,
    ) -> u64;
    pub(crate) fn oxml_descendants_of(
        record: *const u64,
        record_len: usize,
        memory: *const u64,
        memory_len: usize,
        zone: u64,
        position: *mut u64,
        position_len: usize,
    ) -> u64;
    pub(crate) fn oxml_walk_next(
        record: *const u64,
        record_len: usize,
        memory: *const u64,
        memory_len: usize,
        position: *mut u64,
        position_len: usize,
        answer: *mut u64,
        answer_len: usize,
    ) -> u64;
    pub(crate) fn oxml_list_below(
        record: *const u64,
        record_len: usize,
        memory: *const u64,
        memory_len: usize,
        zone: u64,
        out: *mut u64,
        out_len: usize,
        answer: *mut u64,
        answer_len: usize,
    ) -> u64;
    pub(crate) fn oxml_order_key(
        record: *const u64,
        record_len: usize,
        memory: *const u64,
        memory_len: usize,
        id: u64,
        answer: *mut u64,
        answer_len: usize,
    ) -> u64;
    pub(crate) fn oxml_entries(
        record: *const u64,
        record_len: usize,
        memory: *const u64,
        memory_len: usize,
        arena: u64,
        start: u64,
        len: u64,
        out: *mut u64,
        out_len: usize,
    ) -> u64;
    pub(crate) fn oxml_text_bytes(
        record: *const u64,
        record_len: usize,
        memory: *const u64,
        memory_len: usize,
        text: u64,
        out: *mut u64,
        out_len: usize,
    ) -> u64;
    pub(crate) fn oxml_namespace_bytes(
        record: *const u64,
        record_len: usize,
        memory: *const u64,
        memory_len: usize,
        number: u64,
        out: *mut u64,
        out_len: usize,
    ) -> u64;
    pub(crate) fn oxml_local_bytes(
        record: *const u64,
        record_len: usize,
        memory: *const u64,
        memory_len: usize,
        number: u64,
        out: *mut u64,
        out_len: usize,
    ) -> u64;
    pub(crate) fn oxml_order_words(
        record: *const u64,
        record_len: usize,
        memory: *const u64,
        memory_len: usize,
        out: *mut u64,
        out_len: usize,
    ) -> u64;
}
