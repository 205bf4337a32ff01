// simdjson's parser for bench/graphs: a text whole into its document, by a parser that is kept. It doesn't look for repeated keys.
#include <simdjson.h>

static simdjson::dom::parser parser;

extern "C" int simd_parse(const char *text, size_t length)
{
    simdjson::dom::element document;
    return parser.parse(text, length).get(document);
}
