/* The document's own trials that are run. */
#ifndef TRIALS_H
#define TRIALS_H

void try_document(void);

#endif
