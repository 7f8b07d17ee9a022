/* What the command reads as text: words between white space, numbers in them, lines, and hex. It knows no carriage. */
#ifndef TEXT_H
#define TEXT_H

#include "bytes.h"

/* A part of a text. */
typedef struct part {
    const uint8_t *at;
    size_t len;
} part;

part part_of(const char *text);
bool is_text(part p, const char *text);

/* Takes the next line off a text, without its line feed. Answers whether there was one. */
bool next_line(part *text, part *line);

/* Takes the next word off a text. At its end the word is empty, and the answer false. */
bool next_word(part *text, part *word);

/* Whether nothing but white space is left. */
bool is_blank(part text);

/* The line, from 1, of the last word that was taken off a text, of which the rest is left. */
size_t line_of(part text, part rest);

/* One decimal digit or more. What is too large becomes the largest: no item is as large, and so it stays too large. */
bool decimal_of(part word, uint64_t *n);

/* One hex digit or more, the same. */
bool hex_of(part word, uint64_t *n);

/* Two hex digits. */
bool hex_byte_of(part word, uint8_t *byte);

/* A number for an item that has fewer bits. What is too large for it becomes the largest, and is never cut. */
uint8_t to_8(uint64_t n);
uint32_t to_32(uint64_t n);

/* The next word of a text as such a number. */
bool next_decimal(part *text, uint64_t *n);
bool next_decimal_8(part *text, uint8_t *n);
bool next_decimal_32(part *text, uint32_t *n);
bool next_hex_byte(part *text, uint8_t *byte);

/* What is wrong with a text in hex, and in which of its lines, from 1; words is null where nothing is. */
typedef struct fault {
    const char *words;
    size_t line;
} fault;

/* Adds the bytes that a text writes: two digits each, in groups, with white space and commas between these. */
fault put_hex_text(bytes *to, part text);

/*
 * Adds the 16-bit words that a text writes, each as the two bytes that this machine has for it: a group of one to four
 * digits is a word, and a longer one is words of four digits each.
 */
fault put_hex_words(bytes *to, part text);

#endif
