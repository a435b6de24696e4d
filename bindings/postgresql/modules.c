/* Registries that are made from modules of a Move chain. */
#include "bcs_pg.h"

#include "catalog/pg_type.h"
#include "lib/stringinfo.h"
#include "utils/array.h"
#include "utils/builtins.h"

/* An element of the types. C would skip an empty one, and take one with a line feed for two. */
static void
append_type(StringInfo lines, Datum element)
{
	const struct varlena *text = PG_DETOAST_DATUM_PACKED(element);
	const struct piece type = utf8_of((struct piece) {(const uint8_t *) VARDATA_ANY(text), VARSIZE_ANY_EXHDR(text)});

	if (type.length == 0)
		refuse_type(type, "\"\" isn't a type");
	if (memchr(type.at, '\n', type.length) != NULL)
		refuse_type(type, "a type has no line feed");
	appendBinaryStringInfo(lines, (const char *) type.at, type.length);
	appendStringInfoChar(lines, '\n');
}

/* The types, one on each line. */
static struct piece
lines_of(ArrayType *types)
{
	StringInfoData lines;
	Datum	   *elements;
	bool	   *are_null;
	int			count;

	if (ARR_NDIM(types) > 1)
		ereport(ERROR, (errcode(ERRCODE_ARRAY_SUBSCRIPT_ERROR), errmsg("bcs: the types are an array of one dimension")));
	deconstruct_array(types, TEXTOID, -1, false, TYPALIGN_INT, &elements, &are_null, &count);
	initStringInfo(&lines);
	for (int number = 0; number < count; number++)
	{
		if (are_null[number])
			ereport(ERROR, (errcode(ERRCODE_NULL_VALUE_NOT_ALLOWED), errmsg("bcs: a type is null")));
		append_type(&lines, elements[number]);
	}
	return (struct piece) {(const uint8_t *) lines.data, lines.len};
}

static bcs_answer
write_registry(const Arguments *arguments, uint8_t *out, size_t room)
{
	return bcs_registry_of_modules(PIECE(arguments->input), PIECE(arguments->second), out, room);
}

/* The registry's JSON, and its notes on a line of their own. */
static struct varlena *
made(FunctionCallInfo fcinfo)
{
	Arguments	arguments = {.input = utf8_of(argument(fcinfo, 0))};

	check_stack(0);
	arguments.second = lines_of(PG_GETARG_ARRAYTYPE_P(1));
	return written(&arguments, write_registry, 4096);
}

PG_FUNCTION_INFO_V1(bcs_pg_registry_of_modules);

Datum
bcs_pg_registry_of_modules(PG_FUNCTION_ARGS)
{
	struct varlena *text = made(fcinfo);
	const size_t line = length_of_line((const uint8_t *) VARDATA(text), VARSIZE(text) - VARHDRSZ);

	SET_VARSIZE(text, VARHDRSZ + line);
	VARDATA(text)[line] = '\0';
	PG_RETURN_POINTER(server_text(text));
}

PG_FUNCTION_INFO_V1(bcs_pg_notes_of_modules);

Datum
bcs_pg_notes_of_modules(PG_FUNCTION_ARGS)
{
	const struct varlena *text = made(fcinfo);
	const size_t length = VARSIZE(text) - VARHDRSZ;
	const size_t line = length_of_line((const uint8_t *) VARDATA(text), length);

	if (line == length)
		PG_RETURN_NULL();
	PG_RETURN_POINTER(server_text((struct varlena *) cstring_to_text_with_len(VARDATA(text) + line + 1, length - line - 1)));
}
