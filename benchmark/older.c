/*
 * The calls of an older proved card, as far as it has them: linked with that card's archives alone, of which only this table
 * keeps a name. Its memory is no larger than today's.
 */
#include "side.h"

#pragma weak card_lost
#pragma weak card_save
#pragma weak card_restore
#pragma weak card_serve

const struct side older = SIDE("older", card);
