// The header is C++ too: its types have the layout that the proved code has, and its calls link.
#include <bcs.h>
#include <cstring>
#include <string>
#include <type_traits>

static_assert(std::is_standard_layout<bcs_answer>::value && std::is_trivial<bcs_answer>::value, "bcs_answer is C's");
static_assert(sizeof(bcs_answer) == 24, "the size of bcs_answer");

// A string as two arguments.
#define BYTES(text) reinterpret_cast<const std::uint8_t *>((text).data()), (text).size()
#define ON_VALUES handle, BYTES(format), BCS_DEPTH, BCS_NODES
#define TO_OUT out, sizeof out

static_assert(std::is_standard_layout<bcs_question>::value && std::is_trivial<bcs_question>::value, "bcs_question is C's");

// The calls on a handle. Returns a number other than 0 if one answers something else.
static std::size_t wrong_on_handle(bcs_handle *handle) {
    const std::string format = "\"U16\"", text = "513", bytes = "\1\2", path = ".", none;
    std::uint8_t out[2000];
    const bcs_answer coded = bcs_handle_to_bcs(ON_VALUES, BYTES(text), TO_OUT);
    std::size_t wrong = coded.status != BCS_DONE || coded.length != 2 || std::memcmp(out, "\1\2", 2) != 0;
    wrong += bcs_handle_check(ON_VALUES).status;
    wrong += bcs_handle_from_bcs(ON_VALUES, BYTES(bytes), TO_OUT).status;
    wrong += bcs_handle_normalise(ON_VALUES, BYTES(text), TO_OUT).status;
    wrong += bcs_handle_compare(ON_VALUES, BYTES(text), BYTES(text)).status;
    wrong += bcs_handle_scan(ON_VALUES, BYTES(bytes)).status;
    wrong += bcs_handle_part(ON_VALUES, BYTES(bytes), BYTES(path)).status;
    wrong += bcs_handle_part_named(ON_VALUES, BCS_NAME, BYTES(path), BYTES(bytes)).status;
    wrong += bcs_handle_content(ON_VALUES, BCS_NAME, BYTES(path), BYTES(bytes)).fault != BCS_PATH_NO_CONTENT;
    wrong += bcs_handle_explain_with(ON_VALUES, BCS_TREE, BYTES(none), BYTES(bytes), TO_OUT).status;
    wrong += bcs_handle_text_refusal(ON_VALUES, BYTES(text), TO_OUT).status != BCS_NO;
    wrong += bcs_handle_stop_refusal(ON_VALUES, BYTES(bytes), TO_OUT).status != BCS_NO;
    wrong += bcs_handle_schema(ON_VALUES, TO_OUT).status;
    wrong += bcs_handle_example(ON_VALUES, BCS_LEAST, BYTES(none), TO_OUT).status;
    wrong += bcs_handle_show(handle, BCS_JSON, BYTES(none), TO_OUT).status;
    wrong += bcs_handle_format_place(handle, BYTES(format), TO_OUT).status != BCS_NO;
    return wrong;
}

// The calls without one.
static std::size_t wrong_without() {
    const std::string registry = "{}", path = ".", modules = "[]", types = "u8";
    std::uint8_t out[2000];
    std::size_t wrong = bcs_format("U", 1, TO_OUT) != 16 || bcs_nodes_for(1) != 65552;
    wrong += bcs_grows(BYTES(registry), BYTES(registry)).status;
    wrong += bcs_growth_list(BYTES(registry), BYTES(registry), TO_OUT).status;
    wrong += bcs_growth_place(BYTES(registry), BYTES(registry), TO_OUT).status != BCS_NO;
    wrong += bcs_registry_refusal(BYTES(registry), TO_OUT).status != BCS_NO;
    wrong += bcs_path_place(BYTES(path), TO_OUT).status != BCS_NO;
    wrong += bcs_registry_of_modules(BYTES(modules), BYTES(types), TO_OUT).status;
    wrong += bcs_modules_place(BYTES(modules), BYTES(types), TO_OUT).status != BCS_NO;
    wrong += bcs_fault_name(BCS_STOP_BAD_BOOL, TO_OUT).status;
    return wrong;
}

// bcs_ask itself, with a message.
static std::size_t wrong_by_question(bcs_handle *handle) {
    const std::string format = "\"BOOL\"", bytes = "\2";
    std::uint8_t message[100];
    bcs_question question = {};
    question.size = sizeof question;
    question.call = BCS_SCAN;
    question.depth = BCS_DEPTH;
    question.nodes = BCS_NODES;
    question.format = reinterpret_cast<const std::uint8_t *>(format.data());
    question.format_length = format.size();
    question.first = reinterpret_cast<const std::uint8_t *>(bytes.data());
    question.first_length = bytes.size();
    const bcs_answer answer = bcs_ask(handle, &question, nullptr, 0, message, sizeof message);
    return answer.status != BCS_REFUSED || answer.length < 2 || message[0] != '.' || message[1] != 0;
}

int main() {
    const std::string registry = "{}";
    bcs_handle *handle = nullptr;
    std::size_t wrong = bcs_open(&handle, BYTES(registry)).status;
    wrong += wrong_on_handle(handle) + wrong_without() + wrong_by_question(handle);
    bcs_close(handle);
    return wrong == 0 ? 0 : 1;
}
