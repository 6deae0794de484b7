/* lines.h: the line of a write in a trace, by its access alone. */
#ifndef LINES_H
#define LINES_H

#include "segment.h"

/* Spells the event of a write that this replica made, of which only the access is known, and that it took. */
void write_spelled(const struct layout *layout, uint32_t by, struct event *event);

#endif
