#ifndef RANJUPELI_STDLIB_H
#define RANJUPELI_STDLIB_H
int atoi(const char *text);
#endif
