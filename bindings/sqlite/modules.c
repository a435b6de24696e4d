/* Registries that are made from modules of a Move chain. */
#include "bcs_sqlite.h"
SQLITE_EXTENSION_INIT3

static bcs_answer write_registry(const struct arguments *arguments, uint8_t *out, size_t room) {
    return bcs_registry_of_modules(PIECE(arguments->input), PIECE(arguments->second), out, room);
}

/* The modules and the types. The call has the memory of others without limits. */
static bool take_modules(sqlite3_context *context, struct arguments *arguments, sqlite3_value **values) {
    *arguments = (struct arguments){.context = context};
    if (are_some_null(2, values) ||
        !take_piece(context, values[0], IS_TEXT | IS_BLOB, "the modules must be TEXT or BLOB", &arguments->input) ||
        !take_piece(context, values[1], IS_TEXT, "the types must be TEXT", &arguments->second)) {
        return false;
    }
    limit_memory(memory_of_call(arguments, 2, false));
    return true;
}

/* The registry's JSON with its notes, in memory that is returned; null if an error is reported. */
static uint8_t *made(sqlite3_context *context, const struct arguments *arguments, size_t *length) {
    const int most = sqlite3_limit(sqlite3_context_db_handle(context), SQLITE_LIMIT_LENGTH, -1);
    bcs_answer answer;
    uint8_t *out = written(arguments, write_registry, 4096, (size_t)most, &answer);
    *length = answer.length;
    if (answer.status == BCS_DONE) {
        return out;
    }
    sqlite3_free(out);
    if (answer.status == BCS_SHORT) {
        sqlite3_result_error_toobig(context);
    } else {
        refuse(context, arguments, answer);
    }
    return NULL;
}

static void registry_of_modules(sqlite3_context *context, int count, sqlite3_value **values) {
    struct arguments arguments;
    size_t length;
    (void)count;
    if (take_modules(context, &arguments, values)) {
        uint8_t *out = made(context, &arguments, &length);
        if (out != NULL) {
            answer_owned(context, A_JSON, out, length_of_line(out, length));
        }
        limit_memory(NO_LIMIT);
    }
}

static void notes_of_modules(sqlite3_context *context, int count, sqlite3_value **values) {
    struct arguments arguments;
    size_t length;
    (void)count;
    if (take_modules(context, &arguments, values)) {
        uint8_t *out = made(context, &arguments, &length);
        const size_t line = out != NULL ? length_of_line(out, length) : length;
        if (line < length) {
            sqlite3_result_text64(context, (const char *)out + line + 1, length - line - 1, SQLITE_TRANSIENT, SQLITE_UTF8);
        }
        sqlite3_free(out);
        limit_memory(NO_LIMIT);
    }
}

int create_functions_of_modules(sqlite3 *database, struct connection *connection, int flags) {
    static const struct {
        const char *name;
        void (*function)(sqlite3_context *, int, sqlite3_value **);
    } functions[] = {{"bcs_registry_of_modules", registry_of_modules}, {"bcs_notes_of_modules", notes_of_modules}};
    int status = SQLITE_OK;
    for (size_t number = 0; number < sizeof functions / sizeof *functions && status == SQLITE_OK; number++) {
        connection->functions++;
        status = sqlite3_create_function_v2(database, functions[number].name, 2, flags | SQLITE_INNOCUOUS, connection,
                                            functions[number].function, NULL, NULL, leave_connection);
    }
    return status;
}
