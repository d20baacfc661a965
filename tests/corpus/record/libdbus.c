/* Messages as libdbus marshals them, in the byte order of the machine. */
#include "record.h"
#include <dbus/dbus.h>
#include <stdint.h>

static dbus_uint32_t next_serial = 1;

static void must(dbus_bool_t done)
{
    if (!done)
        die("libdbus refused");
}

static void keep(const char *name, DBusMessage *message)
{
    char *bytes;
    int length;

    if (message == NULL)
        die(name);
    dbus_message_set_serial(message, next_serial++);
    must(dbus_message_marshal(message, &bytes, &length));
    save(name, bytes, (size_t) length);
    dbus_free(bytes);
    dbus_message_unref(message);
}

static DBusMessage *call(void)
{
    return dbus_message_new_method_call("org.example.Service", "/org/example/Object", "org.example.Interface", "Method");
}

static DBusMessage *answered_call(void)
{
    DBusMessage *message = call();

    must(dbus_message_set_sender(message, ":1.42"));
    dbus_message_set_serial(message, 77);
    return message;
}

static void calls(void)
{
    DBusMessage *message;

    keep("call-minimal", dbus_message_new_method_call(NULL, "/", NULL, "M"));
    keep("call-destination", dbus_message_new_method_call("org.example.Service", "/a", NULL, "M"));
    keep("call-unique-destination", dbus_message_new_method_call(":1.5", "/a/b/c", "a.b", "M"));
    keep("call-full", call());
    message = call();
    dbus_message_set_no_reply(message, TRUE);
    keep("call-no-reply", message);
    message = call();
    dbus_message_set_auto_start(message, FALSE);
    dbus_message_set_allow_interactive_authorization(message, TRUE);
    keep("call-flags", message);
    keep("call-with-sender", answered_call());
    message = dbus_message_new_method_call(DBUS_SERVICE_DBUS, DBUS_PATH_DBUS, DBUS_INTERFACE_DBUS, "Hello");
    keep("call-hello", message);
    message = dbus_message_new_method_call("com.example-site.with-dashes", "/_1/0", "_._1", "_");
    keep("call-odd-names", message);
}

static void replies(void)
{
    DBusMessage *request = answered_call();
    DBusMessage *message = dbus_message_new_method_return(request);
    const char *text = "result";

    keep("return-empty", message);
    message = dbus_message_new_method_return(request);
    must(dbus_message_append_args(message, DBUS_TYPE_STRING, &text, DBUS_TYPE_INVALID));
    keep("return-string", message);
    message = dbus_message_new(DBUS_MESSAGE_TYPE_METHOD_RETURN);
    must(dbus_message_set_reply_serial(message, UINT32_MAX));
    keep("return-no-destination", message);
    keep("error-plain", dbus_message_new_error(request, "org.example.Error.Failed", NULL));
    keep("error-text", dbus_message_new_error(request, DBUS_ERROR_UNKNOWN_METHOD, "no such method"));
    keep("error-printf", dbus_message_new_error_printf(request, "a.b", "code %d", 7));
    dbus_message_unref(request);
}

static void signals(void)
{
    DBusMessage *message;
    const char *words[3] = { "org.example.Name", "", ":1.9" };

    keep("signal-plain", dbus_message_new_signal("/", "a.b", "Changed"));
    message = dbus_message_new_signal(DBUS_PATH_DBUS, DBUS_INTERFACE_DBUS, "NameOwnerChanged");
    must(dbus_message_set_sender(message, DBUS_SERVICE_DBUS));
    must(dbus_message_append_args(message, DBUS_TYPE_STRING, &words[0], DBUS_TYPE_STRING, &words[1],
                                  DBUS_TYPE_STRING, &words[2], DBUS_TYPE_INVALID));
    keep("signal-name-owner-changed", message);
    message = dbus_message_new_signal("/a", "a.b", "Directed");
    must(dbus_message_set_destination(message, ":1.3"));
    keep("signal-directed", message);
}

static void basic_bodies(void)
{
    unsigned char y = 200;
    dbus_bool_t b = TRUE;
    dbus_int16_t n = -3;
    dbus_uint16_t q = 3;
    dbus_int32_t i = -70000;
    dbus_uint32_t u = 70000;
    dbus_int64_t x = -5000000000LL;
    dbus_uint64_t t = 5000000000ULL;
    double d = 3.25;
    const char *s = "text \xc3\xa9", *o = "/o/p", *g = "a{sv}";
    int h = 0;
    DBusMessage *message = call();

    must(dbus_message_append_args(message, DBUS_TYPE_BYTE, &y, DBUS_TYPE_BOOLEAN, &b, DBUS_TYPE_INT16, &n,
                                  DBUS_TYPE_UINT16, &q, DBUS_TYPE_INT32, &i, DBUS_TYPE_UINT32, &u, DBUS_TYPE_INT64, &x,
                                  DBUS_TYPE_UINT64, &t, DBUS_TYPE_DOUBLE, &d, DBUS_TYPE_STRING, &s,
                                  DBUS_TYPE_OBJECT_PATH, &o, DBUS_TYPE_SIGNATURE, &g, DBUS_TYPE_INVALID));
    keep("body-all-basic", message);
    message = call();
    must(dbus_message_append_args(message, DBUS_TYPE_BYTE, &y, DBUS_TYPE_INVALID));
    keep("body-one-byte", message);
    message = call();
    must(dbus_message_append_args(message, DBUS_TYPE_UNIX_FD, &h, DBUS_TYPE_UNIX_FD, &h, DBUS_TYPE_INVALID));
    keep("body-descriptors", message);
}

static void add_entry(DBusMessageIter *dict, const char *key, dbus_uint32_t value)
{
    DBusMessageIter entry, variant;

    must(dbus_message_iter_open_container(dict, DBUS_TYPE_DICT_ENTRY, NULL, &entry));
    must(dbus_message_iter_append_basic(&entry, DBUS_TYPE_STRING, &key));
    must(dbus_message_iter_open_container(&entry, DBUS_TYPE_VARIANT, "u", &variant));
    must(dbus_message_iter_append_basic(&variant, DBUS_TYPE_UINT32, &value));
    must(dbus_message_iter_close_container(&entry, &variant));
    must(dbus_message_iter_close_container(dict, &entry));
}

static void dict_body(void)
{
    DBusMessage *message = call();
    DBusMessageIter top, dict;

    dbus_message_iter_init_append(message, &top);
    must(dbus_message_iter_open_container(&top, DBUS_TYPE_ARRAY, "{sv}", &dict));
    add_entry(&dict, "Speed", 1200);
    add_entry(&dict, "Temperature", 41);
    must(dbus_message_iter_close_container(&top, &dict));
    keep("body-dict", message);
}

static void empty_array(const char *name, const char *element)
{
    DBusMessage *message = call();
    DBusMessageIter top, array;

    dbus_message_iter_init_append(message, &top);
    must(dbus_message_iter_open_container(&top, DBUS_TYPE_ARRAY, element, &array));
    must(dbus_message_iter_close_container(&top, &array));
    keep(name, message);
}

static void arrays(void)
{
    char deep[33];
    static unsigned char bytes[65536];
    const unsigned char *first = bytes;
    const char *words[] = { "alpha", "beta", "", "gamma" };
    const char **all = words;
    DBusMessage *message = call();

    memset(deep, 'a', 31);
    strcpy(deep + 31, "y");
    empty_array("body-32-arrays", deep);
    empty_array("body-struct-array", "(i(sd)v)");
    empty_array("body-dict-of-dicts", "{oa{sa{sv}}}");
    empty_array("body-empty-bytes", "y");
    must(dbus_message_append_args(message, DBUS_TYPE_ARRAY, DBUS_TYPE_BYTE, &first, 65536, DBUS_TYPE_INVALID));
    keep("body-64k", message);
    message = call();
    must(dbus_message_append_args(message, DBUS_TYPE_ARRAY, DBUS_TYPE_STRING, &all, 4, DBUS_TYPE_INVALID));
    keep("body-strings", message);
}

static void limits(void)
{
    char *name = long_name("org.a.", 255), *member = long_name("M", 255), *path = long_name("/", 1200);
    DBusMessage *message = dbus_message_new_method_call(name, "/", name, member);

    keep("limit-names-255", message);
    keep("limit-path-1200", dbus_message_new_method_call(NULL, path, NULL, "M"));
    message = dbus_message_new_method_call(name, path, name, member);
    must(dbus_message_set_sender(message, name));
    keep("limit-array-too-long", message);
    message = dbus_message_new(DBUS_MESSAGE_TYPE_ERROR);
    must(dbus_message_set_error_name(message, name));
    must(dbus_message_set_reply_serial(message, 1));
    keep("limit-error-name-255", message);
    free(name);
    free(member);
    free(path);
}

static void container_instance(void)
{
    DBusMessage *message = call();

    must(dbus_message_set_container_instance(message, "/org/freedesktop/DBus/Containers1/c0"));
    keep("container-instance", message);
}

int main(int count, char **arguments)
{
    int major, minor, micro;

    if (count == 2)
        record_folder = arguments[1];
    calls();
    replies();
    signals();
    basic_bodies();
    dict_body();
    arrays();
    limits();
    container_instance();
    dbus_get_version(&major, &minor, &micro);
    printf("libdbus %d.%d.%d\n", major, minor, micro);
    return 0;
}
