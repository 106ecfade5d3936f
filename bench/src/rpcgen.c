/* Calls of rpcgen's code for include/message.x, in shapes that Rust can name. */
#include <stdint.h>
#include <string.h>

#include "message.h"

static size_t write_message(yelansub_wire_message *message, uint8_t *out, size_t len)
{
    XDR xdr;
    xdrmem_create(&xdr, (char *)out, (u_int)len, XDR_ENCODE);
    return xdr_yelansub_wire_message(&xdr, message) ? xdr_getpos(&xdr) : 0;
}

size_t rpcgen_write_increment(uint32_t sender, uint64_t sequence, uint32_t counter, uint64_t p,
                              uint32_t start, uint32_t amount, uint8_t *out, size_t len)
{
    yelansub_wire_message message = {.message_version = YELANSUB_MESSAGE_VERSION};
    yelansub_body *body = &message.yelansub_wire_message_u.body;
    body->kind = YELANSUB_INCREMENT;
    body->yelansub_body_u.increment =
        (yelansub_increment){{sender, sequence, counter}, p, (bool_t)start, amount};
    return write_message(&message, out, len);
}

size_t rpcgen_write_clear(uint32_t sender, uint64_t sequence, uint32_t counter,
                          yelansub_entry *entries, size_t count, uint8_t *out, size_t len)
{
    yelansub_wire_message message = {.message_version = YELANSUB_MESSAGE_VERSION};
    yelansub_body *body = &message.yelansub_wire_message_u.body;
    body->kind = YELANSUB_CLEAR;
    body->yelansub_body_u.clearing =
        (yelansub_clearing){{sender, sequence, counter}, {(u_int)count, entries}};
    return write_message(&message, out, len);
}

/* Reads into memory kept by the caller, so that nothing is allocated: a sum of what was read. */
uint64_t rpcgen_read(const uint8_t *bytes, size_t len)
{
    yelansub_entry entries[YELANSUB_MOST_CARDS];
    yelansub_wire_message message;
    memset(&message, 0, sizeof message);
    /* Where the message is an increment, p, start and amount are read over this. */
    yelansub_body *body = &message.yelansub_wire_message_u.body;
    body->yelansub_body_u.clearing.entries.entries_val = entries;
    XDR xdr;
    xdrmem_create(&xdr, (char *)bytes, (u_int)len, XDR_DECODE);
    if (!xdr_yelansub_wire_message(&xdr, &message) || xdr_getpos(&xdr) != len)
        return 0;
    return body->yelansub_body_u.increment.header.sequence;
}

/* Reads as rpcgen's manual has it: the array allocated by XDR and freed after use. */
uint64_t rpcgen_read_allocating(const uint8_t *bytes, size_t len)
{
    yelansub_wire_message message;
    memset(&message, 0, sizeof message);
    XDR xdr;
    xdrmem_create(&xdr, (char *)bytes, (u_int)len, XDR_DECODE);
    bool_t well = xdr_yelansub_wire_message(&xdr, &message) && xdr_getpos(&xdr) == len;
    uint64_t sequence =
        message.yelansub_wire_message_u.body.yelansub_body_u.increment.header.sequence;
    xdr_free((xdrproc_t)xdr_yelansub_wire_message, (char *)&message);
    return well ? sequence : 0;
}
