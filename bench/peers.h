// Other programs that renumber a graph for a narrow band or profile, where they are installed: HAVE_.. is defined for each that is.
#ifndef PEERS_H
#define PEERS_H

#include "jobs.h"

#include <vector>

// A line for each: name, then nanoseconds and bandwidth, profile and front of its numbering, or what went wrong. Each runs in a child process
// with a limit of time, so that one that hangs or crashes costs its line only. Putting the graph into its own type is not timed.
void time_peers(const std::vector<u16> &starts, const std::vector<u16> &neighbours);

#endif
