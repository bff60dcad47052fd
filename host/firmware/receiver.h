/* the receiver's program, from the first second to the last */
#ifndef RECEIVER_H
#define RECEIVER_H

void receive(void);

#endif
