/* Netlink: one message for each interface whose state changes, and one for each when asked. */
#include "links.h"

#include <errno.h>
#include <linux/netlink.h>
#include <linux/rtnetlink.h>
#include <net/if.h>
#include <string.h>
#include <sys/socket.h>
#include <unistd.h>

#include "tell.h"

#define MESSAGE_ROOM 32768

/* Asks for the state of all interfaces. */
static bool ask_all(int links)
{
    struct {
        struct nlmsghdr head;
        struct ifinfomsg body;
    } request = {.head = {.nlmsg_len = sizeof request,
                          .nlmsg_type = RTM_GETLINK,
                          .nlmsg_flags = NLM_F_REQUEST | NLM_F_DUMP},
                 .body = {.ifi_family = AF_UNSPEC}};

    return send(links, &request, sizeof request, MSG_DONTWAIT) == sizeof request;
}

int links_open(void)
{
    struct sockaddr_nl group = {.nl_family = AF_NETLINK, .nl_groups = RTMGRP_LINK};
    int links = socket(AF_NETLINK, SOCK_RAW | SOCK_NONBLOCK | SOCK_CLOEXEC, NETLINK_ROUTE);

    if (links < 0 || bind(links, (struct sockaddr *)&group, sizeof group) < 0 || !ask_all(links))
        fail("the links' states cannot be asked: %s", strerror(errno));
    return links;
}

/* Hands on one message. */
static void read_message(struct nlmsghdr *message, link_told *told, void *whom)
{
    struct ifinfomsg *body = NLMSG_DATA(message);
    bool gone = message->nlmsg_type == RTM_DELLINK;
    size_t left = message->nlmsg_len, head = NLMSG_LENGTH(NLMSG_ALIGN(sizeof *body));
    char *place = (char *)message + head;

    if ((message->nlmsg_type != RTM_NEWLINK && !gone) || left < head)
        return;
    bool up = !gone && (body->ifi_flags & IFF_UP) && (body->ifi_flags & IFF_RUNNING);
    for (left -= head; left >= sizeof(struct rtattr);) {
        struct rtattr *a = (struct rtattr *)(void *)place;
        size_t length = RTA_ALIGN(a->rta_len);

        if (a->rta_len < sizeof *a || length > left)
            return;
        if (a->rta_type == IFLA_IFNAME)
            told(whom, RTA_DATA(a), gone ? 0 : body->ifi_index, up);
        place += length;
        left -= length;
    }
}

void links_read(int links, link_told *told, void *whom)
{
    static struct telling failed;
    static char text[MESSAGE_ROOM] __attribute__((aligned(NLMSG_ALIGNTO)));
    ssize_t got;

    while ((got = recv(links, text, sizeof text, MSG_DONTWAIT)) > 0) {
        unsigned left = (unsigned)got;

        for (struct nlmsghdr *m = (struct nlmsghdr *)(void *)text; NLMSG_OK(m, left);
             m = NLMSG_NEXT(m, left))
            read_message(m, told, whom);
    }
    if (got < 0 && errno != EAGAIN && errno != EINTR) {
        tell_seldom(&failed, "links' states were missed, and are asked anew: %s", strerror(errno));
        if (!ask_all(links))
            tell_seldom(&failed, "the links' states cannot be asked: %s", strerror(errno));
    }
}
