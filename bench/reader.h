/* A plain reader in C, to compare odf_read with: the same checks and answers. */
#ifndef READER_H
#define READER_H

#include "../c/odf.h"

uint32_t plain_read(const uint8_t *image, size_t length, struct odf_report *report, struct odf_fault *fault);

#endif
