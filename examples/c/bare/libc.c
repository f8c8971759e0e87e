/*
 * What the examples take of a C library, for a machine that has none. Of these the library itself asks for memcpy, memmove and memset.
 * printf knows %s, %u, %f and %% with a precision and with z or l before u; what isn't negative, and below 2^53 for %f.
 */
#pragma GCC optimize("no-tree-loop-distribute-patterns") /* or a loop of memcpy becomes a call of memcpy */
#include "bare.h"

#include <math.h>
#include <stdarg.h>
#include <stdbool.h>
#include <stdlib.h>
#include <string.h>

FILE *stdout, *stderr; /* the same stream */

static const uint64_t FRACTION = (UINT64_C(1) << 52) - 1; /* of the bits of a double */

void *memcpy(void *to, const void *from, size_t bytes)
{
    char *at = to;
    for (const char *next = from; bytes; bytes--)
        *at++ = *next++;
    return to;
}

void *memmove(void *to, const void *from, size_t bytes)
{
    if ((uintptr_t)to - (uintptr_t)from >= bytes)
        return memcpy(to, from, bytes);
    while (bytes--)
        ((char *)to)[bytes] = ((const char *)from)[bytes];
    return to;
}

void *memset(void *to, int value, size_t bytes)
{
    for (char *at = to; bytes; bytes--)
        *at++ = (char)value;
    return to;
}

int memcmp(const void *one, const void *other, size_t bytes)
{
    const unsigned char *a = one, *b = other;
    for (; bytes; bytes--, a++, b++)
        if (*a != *b)
            return *a < *b ? -1 : 1;
    return 0;
}

int strcmp(const char *one, const char *other)
{
    while (*one && *one == *other)
        one++, other++;
    return (unsigned char)*one - (unsigned char)*other;
}

/* Digits with a point or none; right to the last bit where they are fewer than 16. */
double strtod(const char *text, char **end)
{
    uint64_t digits = 0;
    double divisor = 1;
    const char *at = text;
    for (bool is_behind = false; (*at >= '0' && *at <= '9') || (*at == '.' && !is_behind); at++) {
        if (*at == '.') {
            is_behind = true;
            continue;
        }
        digits = 10 * digits + (uint64_t)(*at - '0');
        divisor *= is_behind ? 10 : 1;
    }
    *end = (char *)at;
    return (double)digits / divisor;
}

double floor(double number)
{
    return __builtin_floor(number);
}

/* Of a number above 0, by the row of atanh: right to some bits of the last place. */
double log(double number)
{
    uint64_t bits;
    memcpy(&bits, &number, sizeof bits);
    int halvings = 1022 - (int)(bits >> 52);
    bits = (bits & FRACTION) | UINT64_C(1022) << 52; /* from a half to 1 */
    memcpy(&number, &bits, sizeof bits);
    if (number < 0.70710678118654752) {
        number *= 2;
        halvings++;
    }
    double part = (number - 1) / (number + 1), square = part * part, sum = 0;
    for (int odd = 25; odd > 0; odd -= 2)
        sum = sum * square + 1.0 / odd;
    return 2 * part * sum - halvings * 0.69314718055994531;
}

/* At least that many digits. */
static void put_number(uint64_t number, unsigned least)
{
    char digit[20];
    unsigned count = 0;
    do
        digit[count++] = (char)('0' + number % 10);
    while (number /= 10);
    for (unsigned more = count; more < least; more++)
        board_put('0');
    while (count)
        board_put(digit[--count]);
}

/* With that many digits after the point: the nearest such number, of two the even one. */
static void put_fixed(double number, unsigned digits)
{
    uint64_t bits, ten = 1;
    memcpy(&bits, &number, sizeof bits);
    for (unsigned at = 0; at < digits; at++)
        ten *= 10;
    unsigned shift = 1075 - (unsigned)(bits >> 52);
    uint64_t shifted = ((bits & FRACTION) | (FRACTION + 1)) * ten, whole = 0;
    if (shift < 64) {
        uint64_t half = UINT64_C(1) << (shift - 1);
        whole = shifted >> shift;
        uint64_t rest = shifted - (whole << shift);
        whole += rest > half || (rest == half && whole % 2);
    }
    put_number(whole / ten, 1);
    if (digits) {
        board_put('.');
        put_number(whole % ten, digits);
    }
}

static void put_text(const char *text, unsigned most)
{
    while (most-- && *text)
        board_put(*text++);
}

/* One conversion, after its %; gives where it ends. */
static const char *convert(const char *format, va_list *values)
{
    unsigned precision = UINT32_MAX;
    bool is_long = false;
    if (*format == '.') {
        format++;
        precision = *format == '*' ? va_arg(*values, unsigned) : (unsigned)(*format - '0');
        format++;
    }
    for (; *format == 'l' || *format == 'z'; format++)
        is_long = true;
    if (*format == 's')
        put_text(va_arg(*values, const char *), precision);
    else if (*format == 'u')
        put_number(is_long ? va_arg(*values, unsigned long) : va_arg(*values, unsigned), 1);
    else if (*format == 'f')
        put_fixed(va_arg(*values, double), precision);
    else
        board_put(*format);
    return format + 1;
}

static void print(const char *format, va_list *values)
{
    while (*format)
        if (*format == '%')
            format = convert(format + 1, values);
        else
            board_put(*format++);
}

int printf(const char *format, ...)
{
    va_list values;
    va_start(values, format);
    print(format, &values);
    va_end(values);
    return 0;
}

int fprintf(FILE *to, const char *format, ...)
{
    va_list values;
    (void)to;
    va_start(values, format);
    print(format, &values);
    va_end(values);
    return 0;
}
