/* The checks of each part of the C face. */
#ifndef PARTS_H
#define PARTS_H

void codec(void);
void tracing(void);
void viewing(void);
void listed(void);
void lines(void);
void inputs(void);
void reported(void);
void mapped(void);
void replayed(void);
void blocks(void);
void ends(void);
void names(void);

#endif
