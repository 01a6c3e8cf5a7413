/* Bytes as hexadecimal digits, for the programs beside this file. */
#include <stdint.h>
#include <stdio.h>

/* A space and the bytes; '-' where there are none. */
static void print_bytes(const uint8_t *bytes, size_t length)
{
    printf(length == 0 ? " -" : " ");
    for (size_t at = 0; at < length; at++)
        printf("%02X", bytes[at]);
}

/* The bytes that the digits stand for, up to the first character that is no digit; how many. */
static size_t bytes_of(const char *digits, uint8_t *bytes)
{
    size_t length = 0;
    unsigned byte;

    while (sscanf(digits + 2 * length, "%2x", &byte) == 1)
        bytes[length++] = (uint8_t)byte;
    return length;
}
