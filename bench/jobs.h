// A job is a work item and who does it.
#pragma once
#include <dbus/dbus.h>
#include <gio/gio.h>

#include "inputs.h"

struct job {
    char work[96];
    const char *who;
    uint64_t (*run)(const struct job *);
    uint64_t expect;
    struct bytes a, image, memory;
    int n;
    uint64_t limit;
    dbus_bool_t (*dbus)(const char *, DBusError *);
    gboolean (*glib)(const gchar *);
    double ns;
};

// A job more, of which all else is set by the caller.
struct job *add(const char *work, const char *who, uint64_t (*run)(const struct job *), uint64_t expect);

// The jobs of ticks, and of conversions.
void all_ticks(void);
void all_conversions(void);
