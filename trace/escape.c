/* Texts in JSON and XML. Bytes that are not ASCII, and controls, are of names of programs alone: they become '?'. */
#include "launcher.h"

static int plain(char c) { return (c >= ' ' && c < 0x7f) || c == '\n' || c == '\t' ? c : '?'; }

/// A string of JSON, with its quotes.
void escape_json(FILE *to, const char *text)
{
    fputc('"', to);
    for (; *text; text++) {
        const int c = plain(*text);
        if (c == '\n' || c == '\t')
            fputs(c == '\n' ? "\\n" : "\\t", to);
        else
            fprintf(to, c == '"' || c == '\\' ? "\\%c" : "%c", c);
    }
    fputc('"', to);
}

/// One character of XML, in an element or an attribute.
void escape_xml(FILE *to, char c)
{
    switch (plain(c)) {
    case '&': fputs("&amp;", to); break;
    case '<': fputs("&lt;", to); break;
    case '>': fputs("&gt;", to); break;
    case '"': fputs("&quot;", to); break;
    default: fputc(plain(c), to);
    }
}
