/* Messages as GLib's GDBus marshals them, in both byte orders. */
#include "record.h"
#include <gio/gio.h>
#include <gio/gunixfdlist.h>

static guint32 next_serial = 1;
static GDBusMessageByteOrder order = G_DBUS_MESSAGE_BYTE_ORDER_LITTLE_ENDIAN;
static const char *order_name = "little";

/* Saves NAME-ORDER.msg and forgets the message. */
static void keep(const char *name, GDBusMessage *message)
{
    GError *error = NULL;
    gsize length;
    guchar *bytes;
    char full_name[256];

    g_dbus_message_set_byte_order(message, order);
    g_dbus_message_set_serial(message, next_serial++);
    bytes = g_dbus_message_to_blob(message, &length, G_DBUS_CAPABILITY_FLAGS_UNIX_FD_PASSING, &error);
    if (bytes == NULL)
        die(error->message);
    snprintf(full_name, sizeof full_name, "%s-%s", name, order_name);
    save(full_name, bytes, length);
    g_free(bytes);
    g_object_unref(message);
}

static GDBusMessage *call(void)
{
    return g_dbus_message_new_method_call("org.example.Service", "/org/example/Object", "org.example.Interface", "Method");
}

/* A call whose body is a GVariant in GLib's text form. */
static void keep_body(const char *name, const char *type, const char *text)
{
    GError *error = NULL;
    GVariantType *wanted = g_variant_type_new(type);
    GVariant *body = g_variant_parse(wanted, text, NULL, NULL, &error);
    GDBusMessage *message = call();

    if (body == NULL)
        die(error->message);
    g_dbus_message_set_body(message, body);
    keep(name, message);
    g_variant_unref(body);
    g_variant_type_free(wanted);
}

static void calls(void)
{
    GDBusMessage *message;

    keep("call-minimal", g_dbus_message_new_method_call(NULL, "/", NULL, "M"));
    keep("call-full", call());
    message = call();
    g_dbus_message_set_flags(message, G_DBUS_MESSAGE_FLAGS_NO_REPLY_EXPECTED);
    keep("call-no-reply", message);
    message = call();
    g_dbus_message_set_flags(message, G_DBUS_MESSAGE_FLAGS_NO_AUTO_START
                                          | G_DBUS_MESSAGE_FLAGS_ALLOW_INTERACTIVE_AUTHORIZATION);
    g_dbus_message_set_sender(message, ":1.77");
    keep("call-flags-sender", message);
    keep("call-unique", g_dbus_message_new_method_call(":1.2", "/a_b/0", "a.b", "M"));
}

static void replies_and_signals(void)
{
    GDBusMessage *request = call(), *message;

    g_dbus_message_set_serial(request, 4000000000u);
    g_dbus_message_set_sender(request, ":1.42");
    keep("return-empty", g_dbus_message_new_method_reply(request));
    message = g_dbus_message_new_method_reply(request);
    g_dbus_message_set_body(message, g_variant_new("(s)", "result"));
    keep("return-string", message);
    keep("error-text", g_dbus_message_new_method_error_literal(request, "org.example.Error.Failed", "it failed"));
    g_object_unref(request);
    keep("signal-plain", g_dbus_message_new_signal("/", "a.b", "Changed"));
    message = g_dbus_message_new_signal("/a", "a.b", "Directed");
    g_dbus_message_set_destination(message, "org.example-name.X");
    g_dbus_message_set_sender(message, "org.freedesktop.DBus");
    keep("signal-directed", message);
}

static void bodies(void)
{
    keep_body("body-all-basic", "(ybnqiuxtdsog)",
              "(200, true, -3, 3, -70000, 70000, -5000000000, 5000000000, 3.25, 'text', '/o/p', 'a{sv}')");
    keep_body("body-dict", "(a{sv})", "({'Speed': <uint32 1200>, 'On': <true>, 'Names': <['a', 'b']>},)");
    keep_body("body-dict-of-dicts", "(a{oa{sa{sv}}})", "({objectpath '/o': {'a.b': {'P': <1>}}},)");
    keep_body("body-nested-structs", "((i(sd)v)a(yy))", "((1, ('x', 2.5), <(1, 2)>), [(byte 1, byte 2)])");
    keep_body("body-variants", "(vvv)", "(<1>, <<'inner'>>, <[<byte 1>, <'two'>]>)");
    keep_body("body-empty-arrays", "(asa{sv}aayav)", "(@as [], @a{sv} {}, @aay [], @av [])");
    keep_body("body-one-byte", "(y)", "(byte 0x6c,)");
}

static void descriptors(void)
{
    GUnixFDList *list = g_unix_fd_list_new();
    GDBusMessage *message = call();

    if (g_unix_fd_list_append(list, 0, NULL) != 0)
        die("descriptor list");
    g_dbus_message_set_unix_fd_list(message, list);
    g_dbus_message_set_body(message, g_variant_new("(h)", 0));
    keep("body-descriptor", message);
    g_object_unref(list);
}

static void big_body(void)
{
    GVariantBuilder builder;
    GDBusMessage *message = call();
    int index;

    g_variant_builder_init(&builder, G_VARIANT_TYPE("a(us)"));
    for (index = 0; index < 1500; index++)
        g_variant_builder_add(&builder, "(us)", (guint32) index, "a row of text");
    g_dbus_message_set_body(message, g_variant_new("(a(us))", &builder));
    keep("body-big", message);
}

static void limits(void)
{
    char *name = long_name("org.a.", 255), *member = long_name("M", 255), *path = long_name("/", 1200);
    GDBusMessage *message = g_dbus_message_new_method_call(name, "/", name, member);

    keep("limit-names-255", message);
    message = g_dbus_message_new_method_call(name, path, name, member);
    g_dbus_message_set_sender(message, name);
    keep("limit-array-too-long", message);
    free(name);
    free(member);
    free(path);
}

/* Fields that the D-Bus Specification does not know, which GLib writes when asked. */
static void unknown_field(void)
{
    GDBusMessage *message = call();

    g_dbus_message_set_header(message, (GDBusMessageHeaderField) 10, g_variant_new_string("later"));
    keep("unknown-field-10", message);
}

static void all(void)
{
    calls();
    replies_and_signals();
    bodies();
    descriptors();
    big_body();
    limits();
    unknown_field();
}

int main(int count, char **arguments)
{
    if (count == 2)
        record_folder = arguments[1];
    all();
    order = G_DBUS_MESSAGE_BYTE_ORDER_BIG_ENDIAN;
    order_name = "big";
    all();
    printf("GLib %u.%u.%u\n", glib_major_version, glib_minor_version, glib_micro_version);
    return 0;
}
