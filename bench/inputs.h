// What the benchmark works on: heads, names, policy images.
#ifndef INPUTS_H
#define INPUTS_H
#include <stddef.h>
#include <stdint.h>

struct bytes {
    unsigned char *at;
    size_t len;
};

// Where a value is written: places count from the message's first byte.
struct writer {
    unsigned char *b;
    size_t at;
};

// A value of some type.
struct value {
    const char *signature;
    void (*put)(struct writer *);
};

// A message, little-endian; a field that is NULL or 0 is left out. Its body is zeros, or one value. `extra` is the value of an unknown field.
struct message {
    int kind, flags;
    const char *path, *interface, *member, *destination, *sender, *signature;
    uint32_t reply_serial;
    uint32_t body;
    const struct value *extra, *content;
};

// Values as real messages have them: properties as in PropertiesChanged; twenty names; a text of 1,900 bytes; menu items; a number.
extern const struct value PROPERTIES, NAMES, TEXT, STRUCTS, NUMBER;

struct bytes message_bytes(const struct message *m);

// A message so many times in a row.
struct bytes in_a_row(struct bytes message, size_t times);

// Heads of 2,048 bytes, of type 5, which needs no field: one unknown field is all they have. The one that costs the most of all that bench/worst found,
// in front of a body of so many bytes, which is not there; and an array of variants in 31 parentheses each.
struct bytes dearest_head(uint32_t body);
struct bytes parenthesized_head(void);

// The name of n bytes of a form: 0 interface, 1 well-known, 2 unique, 4 member, 5 path.
char *name_of(int form, size_t n);

// A text of n bytes in characters of three bytes; ASCII at its end, where n is no multiple of three.
char *wide_text(size_t n);

char *repeated(const char *s, size_t times, const char *end);

// The rules of an image: none is about the message; each fits but for the receiver's name; the same for messages of any type; the last decides; all but two are
// about others.
enum rules { OTHERS, NEARLY, NEARLY_ANY, MANDATORY, PASSING };

// An image of one connect rule, one own rule, and n transaction rules. Everybody may connect and own.
struct bytes image_of(enum rules rules, int n);

// The fields of the message that is judged.
#define PATH "/org/example/Service/Objects/On"
#define INTERFACE "org.example.Service.Interface1"
#define MEMBER "GetAllProperties"
#define NAME "org.example.Service.First"

#endif
