/* The phone's check of a judge sheet. Link with libphone.a. */
#ifndef KANDUEPY_H
#define KANDUEPY_H

#include <stddef.h>
#include <stdint.h>

/* Answers 0 where the `length` bytes are a sheet that can be read; else the number of the sheet's first fault
 * plus 256 times the fault's place. Reads the bytes and nothing else, and keeps nothing. */
uint32_t kanduepy_check(const uint8_t *bytes, size_t length);

#endif
