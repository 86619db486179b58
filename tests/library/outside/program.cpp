// The same from C++, with every struct and enum by its bare name: says what the Idents of the node file on standard input mean.
#include <cstdio>
#include <vaibmusan.h>
#include <vaibmusan_file.h>

static uint8_t file[VAIB_LONGEST_FILE + 1];
static vaib_buffers records;

static void say_local(size_t length, unsigned node, const vaib_node_record &record, size_t copies) {
    uint32_t around[64];
    size_t count = vaib_scopes_around(file, length, node, around, 64);
    vaib_home home;
    vaib_follow(records.copies, copies, around, count, record.slot, &home);
    vaib_binding_record binding = vaib_unpack_binding(records.bindings[record.binding]);
    vaib_scope_record scope = vaib_unpack_scope(records.scopes[home.scope]);
    std::printf("node %u: slot %u, from slot %zu of %u in scope %zu%s\n", node, record.slot, home.slot, scope.slots, home.scope,
                binding.captured ? ", captured" : "");
}

int main() {
    size_t length = std::fread(file, 1, sizeof file, stdin);
    vaib_answer answer = vaib_resolve_into(file, length, &records);
    for (unsigned i = 0; i < vaib_node_count(file); i++) {
        vaib_node node = vaib_get_node(file, i);
        vaib_kind kind = node.kind;
        vaib_node_record record = vaib_unpack_node(records.nodes[i]);
        vaib_class meaning = record.class_of;
        if (kind == VAIB_IDENT && meaning == VAIB_LOCAL) say_local(length, i, record, answer.copies);
    }
    vaib_module_record first = vaib_unpack_module(records.module[0]);
    vaib_slot_record slot = vaib_unpack_slot(records.slots[0]);
    vaib_copy_record copy = vaib_unpack_copy(records.copies[0]);
    vaib_stretch spelling;
    vaib_spelling(file, length, first.name, &spelling);
    std::printf("module slot %u: %.*s\n", first.slot, static_cast<int>(spelling.length), reinterpret_cast<const char *>(file + spelling.offset));
    std::printf("first slot: of scope %u; first copy: into scope %u, %u to %u\n", slot.scope, copy.scope, copy.parent, copy.child);
    vaib_error_record error = vaib_unpack_error(records.errors[0]);
    vaib_error code = error.code;
    vaib_number number = static_cast<vaib_number>(answer.number);
    std::printf("errors: %zu, first code %d; number %d\n", answer.errors, static_cast<int>(code), static_cast<int>(number));
    return 0;
}
