/* Reports with the places of the submissions that they name. */
#ifndef DSA_TRACE_LOCATED_H
#define DSA_TRACE_LOCATED_H

#include "judged.h"

/* Writes reports in words on one process: that of our own findings, and those of dsa_text as they are judged. */
void located_text(FILE *own, const struct judgement *j, struct places *p, const struct gathered *g, FILE *to);
/* Writes an array of JSON for a report in JSON. */
void located_json(FILE *from, struct places *p, const struct gathered *g, FILE *to);

#endif
