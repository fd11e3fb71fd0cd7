/* What goes to a terminal: of dsa_trace and of dsa_prices. */
#ifndef DSA_TRACE_SHOWN_H
#define DSA_TRACE_SHOWN_H

/* Bytes that command a terminal are shown as \x1b from now on, if this process writes to one. */
void shown_begin(void);

#endif
