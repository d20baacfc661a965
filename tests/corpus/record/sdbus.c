/* Messages as sd-bus marshals them. sd-bus hands out no bytes, so they are read from the
   other end of its socket, where this program plays the server of the authentication. */
#include "record.h"
#include <sys/socket.h>
#include <systemd/sd-bus.h>
#include <unistd.h>

static sd_bus *bus;
static int server;

static void must(int result, const char *what)
{
    if (result < 0) {
        fprintf(stderr, "record: %s: %s\n", what, strerror(-result));
        exit(1);
    }
}

static void connect_bus(void)
{
    static const char answers[] = "DATA\r\nOK 0123456789abcdef0123456789abcdef\r\nAGREE_UNIX_FD\r\n";
    int ends[2];

    if (socketpair(AF_UNIX, SOCK_STREAM, 0, ends) != 0)
        die("socketpair");
    server = ends[1];
    if (write(server, answers, sizeof answers - 1) != (ssize_t) sizeof answers - 1)
        die("authentication");
    must(sd_bus_new(&bus), "new");
    must(sd_bus_set_fd(bus, ends[0], ends[0]), "set fd");
    must(sd_bus_negotiate_fds(bus, 1), "negotiate fds");
    must(sd_bus_start(bus), "start");
}

/* The authentication ends with the line BEGIN; messages follow. */
static void skip_authentication(void)
{
    static const char last[] = "BEGIN\r\n";
    size_t matched = 0;
    char byte;

    while (matched < sizeof last - 1) {
        if (read(server, &byte, 1) != 1)
            die("authentication");
        matched = byte == last[matched] ? matched + 1 : (byte == last[0] ? 1 : 0);
    }
}

static void read_exactly(unsigned char *bytes, size_t length)
{
    while (length > 0) {
        ssize_t count = read(server, bytes, length);

        if (count <= 0)
            die("read");
        bytes += count;
        length -= (size_t) count;
    }
}

static size_t number(const unsigned char *at, int big)
{
    return big ? (size_t) at[0] << 24 | (size_t) at[1] << 16 | (size_t) at[2] << 8 | at[3]
               : (size_t) at[3] << 24 | (size_t) at[2] << 16 | (size_t) at[1] << 8 | at[0];
}

/* Sends the message and saves what arrives at the other end. */
static void keep(const char *name, sd_bus_message *message)
{
    static unsigned char bytes[1 << 20];
    static int authenticated;
    size_t body, fields, length;

    must(sd_bus_send(bus, message, NULL), name);
    must(sd_bus_flush(bus), name);
    if (!authenticated)
        skip_authentication();
    authenticated = 1;
    read_exactly(bytes, 16);
    body = number(bytes + 4, bytes[0] == 'B');
    fields = number(bytes + 12, bytes[0] == 'B');
    length = 16 + (fields + 7) / 8 * 8 + body;
    if (length > sizeof bytes)
        die("too long");
    read_exactly(bytes + 16, length - 16);
    save(name, bytes, length);
    sd_bus_message_unref(message);
}

static sd_bus_message *call(void)
{
    sd_bus_message *message;

    must(sd_bus_message_new_method_call(bus, &message, "org.example.Service", "/org/example/Object",
                                        "org.example.Interface", "Method"), "call");
    return message;
}

static void calls(void)
{
    sd_bus_message *message;

    must(sd_bus_message_new_method_call(bus, &message, NULL, "/", NULL, "M"), "call");
    keep("call-minimal", message);
    keep("call-full", call());
    message = call();
    must(sd_bus_message_set_expect_reply(message, 0), "no reply");
    keep("call-no-reply", message);
    message = call();
    must(sd_bus_message_set_auto_start(message, 0), "flags");
    must(sd_bus_message_set_allow_interactive_authorization(message, 1), "flags");
    keep("call-flags", message);
    message = call();
    must(sd_bus_message_set_sender(message, ":1.9"), "sender");
    keep("call-sender", message);
}

static void signals(void)
{
    sd_bus_message *message;

    must(sd_bus_message_new_signal(bus, &message, "/", "a.b", "Changed"), "signal");
    keep("signal-plain", message);
    must(sd_bus_message_new_signal(bus, &message, "/a/b", "org.freedesktop.DBus.Properties", "PropertiesChanged"),
         "signal");
    must(sd_bus_message_append(message, "sa{sv}as", "a.b", 2, "Speed", "u", 1200, "On", "b", 1, 1, "Name"), "body");
    keep("signal-properties-changed", message);
    must(sd_bus_message_new_signal(bus, &message, "/a", "a.b", "Directed"), "signal");
    must(sd_bus_message_set_destination(message, ":1.3"), "destination");
    keep("signal-directed", message);
}

/* A call that came from the other end, so that it can be answered. */
static sd_bus_message *received_call(void)
{
    static const unsigned char request[] = {
        'l', 1, 0, 1, 0, 0, 0, 0, 9, 0, 0, 0, 45, 0, 0, 0,
        1, 1, 'o', 0, 1, 0, 0, 0, '/', 0, 0, 0, 0, 0, 0, 0,
        3, 1, 's', 0, 1, 0, 0, 0, 'M', 0, 0, 0, 0, 0, 0, 0,
        7, 1, 's', 0, 4, 0, 0, 0, ':', '1', '.', '5', 0, 0, 0, 0 };
    sd_bus_message *message = NULL;
    int tries;

    if (write(server, request, sizeof request) != sizeof request)
        die("write");
    for (tries = 0; tries < 100 && message == NULL; tries++)
        must(sd_bus_process(bus, &message), "process");
    if (message == NULL)
        die("no call arrived");
    return message;
}

static void replies(void)
{
    sd_bus_message *request = received_call(), *message;
    sd_bus_error error = SD_BUS_ERROR_MAKE_CONST("org.example.Error.Failed", "it failed");

    must(sd_bus_message_new_method_return(request, &message), "return");
    keep("return-empty", message);
    must(sd_bus_message_new_method_return(request, &message), "return");
    must(sd_bus_message_append(message, "a{sv}", 1, "Result", "(iss)", 1, "two", "three"), "body");
    keep("return-dict", message);
    must(sd_bus_message_new_method_error(request, &message, &error), "error");
    keep("error-text", message);
    sd_bus_message_unref(request);
}

static void bodies(void)
{
    static unsigned char bytes[40000];
    sd_bus_message *message = call();

    must(sd_bus_message_append(message, "ybnqiuxtdsog", 200, 1, -3, 3, -70000, 70000, (int64_t) -5000000000LL,
                               (uint64_t) 5000000000ULL, 3.25, "text", "/o/p", "a{sv}"), "body");
    keep("body-all-basic", message);
    message = call();
    must(sd_bus_message_append(message, "h", 0), "body");
    keep("body-descriptor", message);
    message = call();
    must(sd_bus_message_append(message, "a(yv)", 2, 1, "s", "one", 2, "au", 3, 1, 2, 3), "body");
    keep("body-struct-array", message);
    message = call();
    must(sd_bus_message_append(message, "a{oa{sa{sv}}}", 1, "/o", 1, "a.b", 1, "P", "v", "i", 5), "body");
    keep("body-dict-of-dicts", message);
    message = call();
    must(sd_bus_message_append(message, "(i(sd)v)as", 1, "x", 2.5, "y", 9, 0), "body");
    keep("body-nested-structs", message);
    message = call();
    must(sd_bus_message_append_array(message, 'y', bytes, sizeof bytes), "body");
    keep("body-40k", message);
}

static void limits(void)
{
    char *name = long_name("org.a.", 255), *member = long_name("M", 255), *path = long_name("/", 1200);
    sd_bus_message *message;

    must(sd_bus_message_new_method_call(bus, &message, name, "/", name, member), "call");
    keep("limit-names-255", message);
    must(sd_bus_message_new_method_call(bus, &message, name, path, name, member), "call");
    must(sd_bus_message_set_sender(message, name), "sender");
    keep("limit-array-too-long", message);
    free(name);
    free(member);
    free(path);
}

int main(int count, char **arguments)
{
    if (count == 2)
        record_folder = arguments[1];
    connect_bus();
    calls();
    signals();
    replies();
    bodies();
    limits();
    return 0;
}
