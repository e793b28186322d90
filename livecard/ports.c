/* Packet sockets bound to all protocols: the kernel takes a VLAN tag off, and what is bound to 8809 never learns of it. */
#include "ports.h"

#include <arpa/inet.h>
#include <errno.h>
#include <linux/filter.h>
#include <linux/if_ether.h>
#include <linux/if_packet.h>
#include <stdio.h>
#include <string.h>
#include <sys/ioctl.h>
#include <sys/socket.h>
#include <time.h>
#include <unistd.h>

#include "clock.h"

#ifndef PACKET_IGNORE_OUTGOING
#define PACKET_IGNORE_OUTGOING 23
#endif
#define ADDRESSES 12 /* octets of a frame's two addresses */
#define RECEIVE_ROOM (4 << 20)
#define SEND_PRIORITY 7
#define CONTROL_ROOM 256
#define SECOND 1000000000
/* Twice for each port: the timer and the senders wait no longer than it takes to hand on so many batches. */
#define FILLS_A_ROUND (2 * PORTS)

/* The slow protocols' address, 01-80-C2-00-00-02. */
static const uint8_t group_address[NURRISPANE_SOURCE_OCTETS] = {0x01, 0x80, 0xc2, 0x00, 0x00, 0x02};

/*
 * What can be ESMC, sound or damaged, as `nurrispane capture` takes it: octets 16 to 20 of ESMC, or its
 * destination and octets 13 to 15; octets 13 on may stand behind VLAN tags. Any other frame would be
 * refused with 9 to 11, which leaves the selector as it was.
 */
#define SAME(value, yes, no) BPF_JUMP(BPF_JMP | BPF_JEQ | BPF_K, (value), (yes), (no))
static struct sock_filter esmc_code[] = {
    BPF_STMT(BPF_LDX | BPF_W | BPF_IMM, 0),
    BPF_STMT(BPF_LD | BPF_H | BPF_ABS, 12),
    SAME(0x8100, 2, 0),
    SAME(0x88a8, 1, 0),
    SAME(0x9100, 0, 6),
    BPF_STMT(BPF_LDX | BPF_W | BPF_IMM, 4),
    BPF_STMT(BPF_LD | BPF_H | BPF_ABS, 16),
    SAME(0x8100, 2, 0),
    SAME(0x88a8, 1, 0),
    SAME(0x9100, 0, 1),
    BPF_STMT(BPF_LDX | BPF_W | BPF_IMM, 8),
    /* destination, octets 13-14, octet 15 */
    BPF_STMT(BPF_LD | BPF_W | BPF_ABS, 0),
    SAME(0x0180c200, 0, 6),
    BPF_STMT(BPF_LD | BPF_H | BPF_ABS, 4),
    SAME(0x0002, 0, 4),
    BPF_STMT(BPF_LD | BPF_H | BPF_IND, 12),
    SAME(0x8809, 0, 2),
    BPF_STMT(BPF_LD | BPF_B | BPF_IND, 14),
    SAME(0x0a, 4, 0),
    /* octets 16 to 20 */
    BPF_STMT(BPF_LD | BPF_W | BPF_IND, 15),
    SAME(0x0019a700, 0, 3),
    BPF_STMT(BPF_LD | BPF_B | BPF_IND, 19),
    SAME(0x01, 0, 1),
    BPF_STMT(BPF_RET | BPF_K, 0x40000),
    BPF_STMT(BPF_RET | BPF_K, 0),
};
static const struct sock_fprog esmc_filter = {sizeof esmc_code / sizeof *esmc_code, esmc_code};

void ports_init(struct ports *ports, bool every_frame)
{
    memset(ports, 0, sizeof *ports);
    ports->every_frame = every_frame;
    for (unsigned number = 0; number < PORTS; number++)
        ports->port[number].socket = -1;
}

bool port_is_mapped(const struct port *port)
{
    return port->socket >= 0;
}

/* ---- opening */

static void set(const struct port *port, int level, int name, const void *value, socklen_t length,
                const char *what)
{
    if (setsockopt(port->socket, level, name, value, length) < 0)
        fail("%s: %s: %s", port->name, what, strerror(errno));
}

static bool read_address(struct port *port)
{
    struct ifreq request = {0};

    memcpy(request.ifr_name, port->name, sizeof port->name);
    if (ioctl(port->socket, SIOCGIFHWADDR, &request) < 0)
        return false;
    memcpy(port->address, request.ifr_hwaddr.sa_data, sizeof port->address);
    return true;
}

/* Binds to an interface and joins the group; false where the system says no. */
static bool bind_to(struct port *port, int index)
{
    struct sockaddr_ll to = {.sll_family = AF_PACKET,
                             .sll_protocol = htons(ETH_P_ALL),
                             .sll_ifindex = index};
    struct packet_mreq group = {.mr_ifindex = index,
                                .mr_type = PACKET_MR_MULTICAST,
                                .mr_alen = sizeof group_address};

    memcpy(group.mr_address, group_address, sizeof group_address);
    if (setsockopt(port->socket, SOL_PACKET, PACKET_ADD_MEMBERSHIP, &group, sizeof group) < 0 ||
        bind(port->socket, (struct sockaddr *)&to, sizeof to) < 0 || !read_address(port))
        return false;
    port->index = index;
    return true;
}

void port_open(struct ports *ports, unsigned number, const char *name)
{
    struct port *port = &ports->port[number];
    const int yes = 1, room = RECEIVE_ROOM, priority = SEND_PRIORITY;
    int index;

    if (strlen(name) >= sizeof port->name)
        fail("port %u: %s is no interface: its name is too long", number, name);
    snprintf(port->name, sizeof port->name, "%s", name);
    index = (int)if_nametoindex(name);
    if (index == 0)
        fail("port %u: no interface %s: %s", number, name, strerror(errno));
    /* protocol 0: nothing comes before the filter stands and the socket is bound */
    port->socket = socket(AF_PACKET, SOCK_RAW | SOCK_NONBLOCK | SOCK_CLOEXEC, 0);
    if (port->socket < 0)
        fail("port %u: no packet socket: %s%s", number, strerror(errno),
             errno == EPERM ? " (CAP_NET_RAW is missing)" : "");
    set(port, SOL_SOCKET, SO_TIMESTAMPNS, &yes, sizeof yes, "no times of arrival");
    set(port, SOL_SOCKET, SO_PRIORITY, &priority, sizeof priority, "no priority");
    set(port, SOL_SOCKET, SO_RCVBUF, &room, sizeof room, "no room to receive");
    set(port, SOL_PACKET, PACKET_AUXDATA, &yes, sizeof yes, "VLAN tags cannot be seen");
    if (setsockopt(port->socket, SOL_PACKET, PACKET_IGNORE_OUTGOING, &yes, sizeof yes) < 0)
        tell("%s: outgoing copies are left out one by one: %s", name, strerror(errno));
    if (!ports->every_frame)
        set(port, SOL_SOCKET, SO_ATTACH_FILTER, &esmc_filter, sizeof esmc_filter, "no filter");
    if (!bind_to(port, index))
        fail("port %u: %s cannot be used: %s", number, name, strerror(errno));
}

void port_bind_again(struct ports *ports, unsigned number, int index)
{
    struct port *port = &ports->port[number];

    if (bind_to(port, index))
        tell("port %u: %s is back", number, port->name);
    else
        tell_seldom(&port->failed, "port %u: %s is back and cannot be used: %s", number, port->name,
                    strerror(errno));
}

/* ---- receiving */

/* The time of arrival in ns of CLOCK_MONOTONIC, and the tag that the kernel took off, 0 for none. */
static void read_control(struct msghdr *message, int64_t offset, uint64_t *at, uint32_t *tag)
{
    *at = 0;
    *tag = 0;
    for (struct cmsghdr *c = CMSG_FIRSTHDR(message); c; c = CMSG_NXTHDR(message, c)) {
        if (c->cmsg_level == SOL_SOCKET && c->cmsg_type == SCM_TIMESTAMPNS) {
            struct timespec time;

            memcpy(&time, CMSG_DATA(c), sizeof time);
            int64_t ns = (int64_t)time.tv_sec * SECOND + time.tv_nsec - offset;
            *at = ns < 0 ? 0 : (uint64_t)ns;
        }
        if (c->cmsg_level == SOL_PACKET && c->cmsg_type == PACKET_AUXDATA) {
            struct tpacket_auxdata extra;

            memcpy(&extra, CMSG_DATA(c), sizeof extra);
            if (extra.tp_status & TP_STATUS_VLAN_VALID) {
                uint32_t type = extra.tp_status & TP_STATUS_VLAN_TPID_VALID ? extra.tp_vlan_tpid
                                                                            : ETH_P_8021Q;
                *tag = type << 16 | extra.tp_vlan_tci;
            }
        }
    }
}

/* Puts a VLAN tag back behind the addresses. */
static void put_tag(struct frame *frame, uint32_t tag)
{
    uint32_t octets = htonl(tag);

    memmove(frame->octets + ADDRESSES + TAG_OCTETS, frame->octets + ADDRESSES,
            frame->length - ADDRESSES);
    memcpy(frame->octets + ADDRESSES, &octets, TAG_OCTETS);
    frame->length += TAG_OCTETS;
}

/* Takes what a call of the system left in place `from` into place `to`; false where it is not to be handed on. */
static bool take(struct port *port, struct mmsghdr *message, const struct sockaddr_ll *sender,
                 int64_t offset, uint64_t now, size_t from, size_t to)
{
    struct frame *frame = &port->batch[to];
    uint32_t tag;
    uint64_t at;

    read_control(&message->msg_hdr, offset, &at, &tag);
    if (sender->sll_pkttype == PACKET_OUTGOING || message->msg_len < ADDRESSES)
        return false;
    if (message->msg_len + (tag ? TAG_OCTETS : 0) > LONGEST_FRAME) {
        port->counts.oversized++;
        tell_seldom(&port->failed, "%s: a frame of %u octets was left out: a log has no line for it",
                    port->name, message->msg_len);
        return false;
    }
    if (from != to)
        memcpy(frame->octets, port->batch[from].octets, message->msg_len);
    frame->length = message->msg_len;
    /* a time of day that was set since would put it into the future */
    frame->at = at && at < now ? at : now;
    if (tag)
        put_tag(frame, tag);
    return true;
}

/* Fills a port's empty batch from its socket. */
static void fill(struct port *port)
{
    static uint8_t control[BATCH][CONTROL_ROOM] __attribute__((aligned(8)));
    static struct sockaddr_ll sender[BATCH];
    static struct iovec io[BATCH];
    static struct mmsghdr message[BATCH];
    int64_t offset;
    uint64_t now;
    int count;

    for (size_t i = 0; i < BATCH; i++) {
        io[i] = (struct iovec){port->batch[i].octets, LONGEST_FRAME};
        message[i].msg_hdr = (struct msghdr){&sender[i], sizeof sender[i], &io[i], 1,
                                             control[i], CONTROL_ROOM,     0};
    }
    port->first = port->count = 0;
    count = recvmmsg(port->socket, message, BATCH, MSG_DONTWAIT | MSG_TRUNC, NULL);
    if (count < BATCH)
        port->dry = true;
    if (count < 0) {
        /* a link that went down is told by netlink */
        if (errno != EAGAIN && errno != EINTR && errno != ENETDOWN)
            tell_seldom(&port->failed, "%s: cannot receive: %s", port->name, strerror(errno));
        return;
    }
    offset = real_less_monotonic();
    now = monotonic_ns();
    for (size_t i = 0; i < (size_t)count; i++)
        if (take(port, &message[i], &sender[i], offset, now, i, port->count))
            port->count++;
}

void ports_begin(struct ports *ports)
{
    ports->fills = FILLS_A_ROUND;
    for (unsigned number = 0; number < PORTS; number++)
        ports->port[number].dry = !port_is_mapped(&ports->port[number]);
}

const struct frame *ports_next(struct ports *ports, uint64_t until, unsigned *number)
{
    struct port *earliest = NULL;
    struct frame *frame;

    for (unsigned i = 0; i < PORTS; i++) {
        struct port *port = &ports->port[i];

        for (; port->first == port->count && !port->dry; ports->fills--) {
            if (ports->fills == 0)
                return NULL;
            fill(port);
        }
        if (port->first == port->count || port->batch[port->first].at > until)
            continue;
        if (earliest && port->batch[port->first].at >= earliest->batch[earliest->first].at)
            continue;
        earliest = port;
        *number = i;
    }
    if (!earliest)
        return NULL;
    frame = &earliest->batch[earliest->first++];
    earliest->counts.received++;
    return frame;
}

bool ports_are_behind(const struct ports *ports)
{
    for (unsigned number = 0; number < PORTS; number++)
        if (!ports->port[number].dry)
            return true;
    return false;
}

bool ports_have_more(const struct ports *ports)
{
    for (unsigned number = 0; number < PORTS; number++)
        if (ports->port[number].first < ports->port[number].count)
            return true;
    return false;
}

/* ---- sending, and what was lost */

void port_send(struct port *port, const uint8_t frame[NURRISPANE_FRAME_OCTETS])
{
    if (send(port->socket, frame, NURRISPANE_FRAME_OCTETS, MSG_DONTWAIT) ==
        NURRISPANE_FRAME_OCTETS) {
        port->counts.sent++;
        return;
    }
    port->counts.unsent++;
    /* a link that is down or gone is told by netlink */
    if (errno != ENETDOWN && errno != ENXIO && errno != ENODEV)
        tell_seldom(&port->failed, "%s: a frame was not sent: %s", port->name, strerror(errno));
}

void ports_count_drops(struct ports *ports)
{
    for (unsigned number = 0; number < PORTS; number++) {
        struct port *port = &ports->port[number];
        struct tpacket_stats seen;
        socklen_t length = sizeof seen;

        if (!port_is_mapped(port))
            continue;
        if (getsockopt(port->socket, SOL_PACKET, PACKET_STATISTICS, &seen, &length) < 0) {
            tell_seldom(&port->drops, "port %u: the kernel does not say what it dropped: %s", number,
                        strerror(errno));
        } else if (seen.tp_drops) {
            port->counts.dropped += seen.tp_drops;
            tell_seldom(&port->drops, "port %u: %s: the kernel dropped %u frames", number, port->name,
                        seen.tp_drops);
        }
    }
}
