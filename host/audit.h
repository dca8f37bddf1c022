// What the auditor asked, check by check, on boxes with a suite.
#ifndef AUDIT_H
#define AUDIT_H

#include "show.h"
#include "terms.h"

// Panels that speak one edition: what they conclude, and what is caught.
void audit(struct show *show, const struct suite *suite, uint8_t edition);
// Which edition is spoken, and that it is held to.
void audit_editions(struct show *show, const struct suite *suite);
// Chains of 14 KB, the longest ones, and the largest image.
void audit_chains(struct show *show, const struct suite *suite);
// Damaged images, and hosts that call the library wrongly.
void audit_host(struct show *show, const struct suite *suite);

#endif
