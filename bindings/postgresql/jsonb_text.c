/* The text of a jsonb, like the server's, but with long numbers cut. For 1e131071, which is a few bytes of jsonb, the server writes
 * 131072 digits, and it can't be cancelled while it prints a value. */
#include "bcs_pg.h"

#include "lib/stringinfo.h"
#include "miscadmin.h"
#include "utils/builtins.h"
#include "utils/json.h"
#include "utils/jsonb.h"
#include "utils/memutils.h"
#include "utils/numeric.h"

/* How many digits are printed before the point of a number, and how many after it. The library refuses each number that has a
 * point or more than 20 digits, and shows 200 characters of it. So it reports a number that is cut like the whole number. */
#define MOST_DIGITS 256
#define LARGE "1e256"

/* Makes a number once in a process. */
static Datum
kept_number(Datum *kept, const char *digits)
{
	MemoryContext outer;

	if (*kept != (Datum) 0)
		return *kept;
	outer = MemoryContextSwitchTo(TopMemoryContext);
	*kept = DirectFunctionCall3(numeric_in, CStringGetDatum(digits), ObjectIdGetDatum(InvalidOid), Int32GetDatum(-1));
	MemoryContextSwitchTo(outer);
	return *kept;
}

static bool
is_less(Datum one, Datum other)
{
	return DatumGetInt32(DirectFunctionCall2(numeric_cmp, one, other)) < 0;
}

/* Whether a number has more than MOST_DIGITS digits before its point. */
static bool
is_large(Datum number)
{
	static Datum most = 0;
	static Datum least = 0;

	return !is_less(number, kept_number(&most, LARGE)) || !is_less(kept_number(&least, "-" LARGE), number);
}

static int32
digits_after_point(Datum number)
{
	return DatumGetInt32(DirectFunctionCall1(numeric_scale, number));
}

/* Makes `12` of `1.2e+300`. */
static void
keep_digits(char *text)
{
	char	   *end = text;

	for (const char *from = text; *from != 'e' && *from != '\0'; from++)
	{
		if (*from != '.')
			*end++ = *from;
	}
	*end = '\0';
}

/* A number that isn't negative, without the digits that are too many. */
static void
append_cut(StringInfo text, Datum magnitude)
{
	char	   *digits;

	if (is_large(magnitude))
	{
		digits = numeric_out_sci(DatumGetNumeric(magnitude), MOST_DIGITS);
		keep_digits(digits);
	}
	else
	{
		Datum		cut = DirectFunctionCall2(numeric_trunc, magnitude, Int32GetDatum(MOST_DIGITS));

		digits = DatumGetCString(DirectFunctionCall1(numeric_out, cut));
		pfree(DatumGetPointer(cut));
	}
	appendStringInfoString(text, digits);
	pfree(digits);
}

static void
append_long_number(StringInfo text, Datum number)
{
	Datum		magnitude = DirectFunctionCall1(numeric_abs, number);

	if (is_less(number, magnitude))
		appendStringInfoChar(text, '-');
	append_cut(text, magnitude);
	/* The library reports a number with a point as such. */
	if (is_large(magnitude) && digits_after_point(magnitude) > 0)
		appendStringInfoString(text, ".0");
	pfree(DatumGetPointer(magnitude));
}

static void
append_number(StringInfo text, Datum number)
{
	char	   *digits;

	if (is_large(number) || digits_after_point(number) > MOST_DIGITS)
	{
		append_long_number(text, number);
		return;
	}
	digits = DatumGetCString(DirectFunctionCall1(numeric_out, number));
	appendStringInfoString(text, digits);
	pfree(digits);
}

static void
append_string(StringInfo text, const JsonbValue *value)
{
	char	   *string = pnstrdup(value->val.string.val, value->val.string.len);

	escape_json(text, string);
	pfree(string);
}

static void
append_scalar(StringInfo text, const JsonbValue *value)
{
	switch (value->type)
	{
		case jbvNull:
			appendStringInfoString(text, "null");
			break;
		case jbvBool:
			appendStringInfoString(text, value->val.boolean ? "true" : "false");
			break;
		case jbvNumeric:
			append_number(text, NumericGetDatum(value->val.numeric));
			break;
		case jbvString:
			append_string(text, value);
			break;
		default:
			elog(ERROR, "bcs: unknown type of jsonb: %d", (int) value->type);
	}
}

static void
append_token(StringInfo text, JsonbIteratorToken token, const JsonbValue *value)
{
	switch (token)
	{
		case WJB_BEGIN_ARRAY:
			appendStringInfoChar(text, '[');
			break;
		case WJB_END_ARRAY:
			appendStringInfoChar(text, ']');
			break;
		case WJB_BEGIN_OBJECT:
			appendStringInfoChar(text, '{');
			break;
		case WJB_END_OBJECT:
			appendStringInfoChar(text, '}');
			break;
		case WJB_KEY:
			append_string(text, value);
			appendStringInfoString(text, ": ");
			break;
		default:
			append_scalar(text, value);
	}
}

static bool
is_end(JsonbIteratorToken token)
{
	return token == WJB_END_ARRAY || token == WJB_END_OBJECT;
}

/* Whether the token ends an element of an array or a member of an object. */
static bool
is_item_end(JsonbIteratorToken token)
{
	return token == WJB_ELEM || token == WJB_VALUE || is_end(token);
}

StringInfoData
text_of_jsonb(Jsonb *jsonb)
{
	/* (jsonb stores a scalar in an array, which isn't printed.) */
	const bool	is_scalar = JB_ROOT_IS_SCALAR(jsonb);
	JsonbIterator *iterator = JsonbIteratorInit(&jsonb->root);
	JsonbIteratorToken token;
	JsonbIteratorToken before = WJB_DONE;
	JsonbValue	value;
	StringInfoData text;

	initStringInfo(&text);
	enlargeStringInfo(&text, VARSIZE(jsonb));
	while ((token = JsonbIteratorNext(&iterator, &value, false)) != WJB_DONE)
	{
		CHECK_FOR_INTERRUPTS();
		if (is_item_end(before) && !is_end(token))
			appendStringInfoString(&text, ", ");
		if (!is_scalar || token == WJB_ELEM)
			append_token(&text, token, &value);
		before = token;
	}
	return text;
}
