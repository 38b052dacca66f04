/* The standard streams. */
#ifndef ASPENBOX_STREAMS_H
#define ASPENBOX_STREAMS_H

/* Takes the descriptors 0 to 2 where the program was started without them, before any file is
 * opened: else the next file would get such a number, and messages would be written into it. What
 * uses such a stream fails as on a closed one. */
void streams_secure(void);

#endif
