/* Texts and numbers over rtl_print, for modules. */
#include <stdarg.h>

#include "module.h"

enum { DECIMAL_DIGITS = 10, HEX_DIGITS = 8, HEX_BITS = 4 };

struct text {
    char bytes[CALL_BYTES];
    int count;
};

static void put(struct text *text, char letter) {
    if (text->count < CALL_BYTES) {
        text->bytes[text->count++] = letter;
    }
}

static void put_text(struct text *text, const char *letters) {
    while (*letters != '\0') {
        put(text, *letters++);
    }
}

static void put_decimal(struct text *text, unsigned number) {
    char digits[DECIMAL_DIGITS];
    int count = 0;
    do {
        digits[count++] = (char)('0' + number % 10);
        number /= 10;
    } while (number != 0);
    while (count > 0) {
        put(text, digits[--count]);
    }
}

static void put_signed(struct text *text, int number) {
    if (number < 0) {
        put(text, '-');
    }
    put_decimal(text, number < 0 ? 0 - (unsigned)number : (unsigned)number);
}

static void put_hex(struct text *text, unsigned number) {
    for (int at = HEX_DIGITS - 1; at >= 0; at--) {
        put(text, "0123456789abcdef"[number >> HEX_BITS * at & 15]);
    }
}

int rtl_printf(const char *format, ...) {
    struct text text;
    text.count = 0;
    va_list arguments;
    va_start(arguments, format);
    for (; *format != '\0'; format++) {
        if (*format != '%' || format[1] == '\0') {
            put(&text, *format);
            continue;
        }
        switch (*++format) {
        case 'd':
            put_signed(&text, va_arg(arguments, int));
            break;
        case 'u':
            put_decimal(&text, va_arg(arguments, unsigned));
            break;
        case 'x':
            put_hex(&text, va_arg(arguments, unsigned));
            break;
        case 'c':
            put(&text, (char)va_arg(arguments, int));
            break;
        case 's':
            put_text(&text, va_arg(arguments, const char *));
            break;
        default:
            put(&text, *format);
        }
    }
    va_end(arguments);
    return rtl_print(text.bytes, text.count);
}
