/* What the tools print of a report, for people. */
#ifndef REPORT_H
#define REPORT_H

#include "hipokuta.h"

/* The numbers; and below them what an accepted stream is promised, at a constant rate or a variable one. */
void print_numbers(const struct vbv_report *r);
void print_report(const struct vbv_report *r, int variable);

#endif
